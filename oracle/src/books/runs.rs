//! Free runs, with and without ages, alloc entries and generations at every edge of a device's buckets (kinds 46 to 50).

use super::random::Random;
use super::values::*;
use crate::layout::{Book, Key};
use crate::published::BUCKET_BITS;

/// What the top byte of a run's offset holds.
const AGES: [u64; 5] = [0, 1, 0x7f, 0x80, 0xff];

pub fn book(r: &mut Random) -> Book {
    let mut book = Book { mark: r.one_in(2), version: r.pick(&VERSIONS), device: r.pick(&[0, 0, 1, 7, u64::MAX]), ..Book::default() };
    add(r, &mut book);
    if r.one_in(2) {
        r.shuffle(&mut book.keys);
    }
    sort_tables(&mut book);
    book
}

/// Adds a device's runs, alloc entries and generations to a book, and sets its buckets.
pub fn add(r: &mut Random, book: &mut Book) {
    book.first_bucket = r.pick(&[0, 0, 1, 2, 3, 5, 255, 256, 0xfffe, 0xffff]);
    match r.below(4) {
        0 => tile(r, book, 3),
        1 => {
            tile(r, book, 4);
            disturb(r, book);
        }
        _ => scatter(r, book),
    }
    ages(r, book);
    if r.one_in(2) {
        generations(r, book);
    }
}

/// The same with so many pieces, or runs and alloc entries, for a book without other keys.
pub fn add_many(r: &mut Random, book: &mut Book, count: usize) {
    book.first_bucket = r.pick(&[0, 1, 255, 0xffff]);
    book.buckets = u64::from(book.first_bucket) + r.below(2 * count as u64);
    if r.one_in(2) {
        tiles(r, book, 4, count as u64);
    }
    for _ in 0..r.place(count) {
        disturb(r, book);
    }
    ages(r, book);
    for _ in 0..r.place(1 + count / 64) {
        generations(r, book);
    }
}

/// Covers the buckets by up to six pieces of so many sorts.
fn tile(r: &mut Random, book: &mut Book, sorts: u64) {
    let pieces = r.below(7);
    tiles(r, book, sorts, pieces);
}

/// Covers the buckets by so many pieces, of which a hole is the fourth sort; the last bucket is where the pieces end.
fn tiles(r: &mut Random, book: &mut Book, sorts: u64, pieces: u64) {
    let mut at = u64::from(book.first_bucket);
    for _ in 0..pieces {
        let end = at + 1 + r.below(4);
        let sort = r.below(sorts);
        piece(r, book, at..end, sort);
        at = end;
    }
    book.buckets = at;
}

/// Gives half of the keys of every other book an age.
fn ages(r: &mut Random, book: &mut Book) {
    if r.one_in(2) {
        return;
    }
    for key in &mut book.keys {
        if r.one_in(2) {
            key.offset = key.offset % (1 << BUCKET_BITS) | r.pick(&AGES) << BUCKET_BITS;
        }
    }
}

/// A free run, a run over free buckets, buckets in use or without a type, or a hole (kind 50).
fn piece(r: &mut Random, book: &mut Book, buckets: std::ops::Range<u64>, sort: u64) {
    if sort < 2 {
        book.keys.push(run(book.device, buckets.end, (buckets.end - buckets.start) as u32));
    }
    for bucket in buckets {
        match sort {
            1 if r.one_in(2) => book.alloc.push((bucket, r.pick(&[Some(0), Some(0), None]))),
            2 => book.alloc.push((bucket, r.pick(&[Some(1), Some(3), Some(128), Some(255), None]))),
            _ => {}
        }
    }
}

/// One change to runs: another count of buckets, another first bucket, an entry or a run more.
fn disturb(r: &mut Random, book: &mut Book) {
    match r.below(4) {
        0 => book.buckets = r.near(book.buckets),
        1 => book.first_bucket = r.near(book.first_bucket.into()) as u16,
        2 => add_alloc(r, book),
        _ => add_run(r, book),
    }
}

/// Runs and alloc entries at any edges, in no order.
fn scatter(r: &mut Random, book: &mut Book) {
    let first = u64::from(book.first_bucket);
    let bits = r.pick(&[32, BUCKET_BITS, BUCKET_BITS + 1]);
    book.buckets = match r.below(8) {
        0 => first,
        1 => first.saturating_sub(1),
        2 => r.edge_64(),
        3 | 4 => r.near(1 << bits),
        5 => u64::MAX - r.below(3),
        _ => first + r.below(12),
    };
    for _ in 0..r.below(10) {
        match r.one_in(2) {
            true => add_run(r, book),
            false => add_alloc(r, book),
        }
    }
}

fn run(device: u64, end: u64, size: u32) -> Key {
    Key { size, ..key(FREESPACE, T_SET, device, end, Vec::new()) }
}

/// A bucket at an edge: of the device, of a run in the book, or of the numbers.
fn bucket(r: &mut Random, book: &Book) -> u64 {
    let first = u64::from(book.first_bucket);
    let edge = match r.below(10) {
        0 => r.pick(&[0, 1 << 32, 1 << BUCKET_BITS, u64::MAX]),
        1 | 2 => first,
        3 | 4 => book.buckets,
        5 => first + r.below(book.buckets.saturating_sub(first).saturating_add(1)),
        _ if book.keys.is_empty() => first + r.below(8),
        _ => {
            let place = r.place(book.keys.len());
            run_edge(r, &book.keys[place])
        }
    };
    if r.one_in(2) {
        edge
    } else {
        r.near(edge)
    }
}

fn run_edge(r: &mut Random, run: &Key) -> u64 {
    match r.one_in(2) {
        true => run.offset,
        false => run.offset.wrapping_sub(run.size.into()),
    }
}

/// Kinds 47, 48: a run that ends at an edge and starts at another, of size 0, or of a size at an edge.
fn add_run(r: &mut Random, book: &mut Book) {
    let end = bucket(r, book);
    let size = match r.below(8) {
        0 => 0,
        1 => r.edge_32(),
        2 => end as u32,
        3 => (end as u32).wrapping_add(1),
        4 => r.below(4) as u32,
        _ => end.wrapping_sub(bucket(r, book)) as u32,
    };
    let device = if r.one_in(12) { r.edge_64() } else { book.device };
    let mut made = run(device, end, size);
    match r.below(24) {
        0 => made.key_type = r.pick(&[0, 1, 24, 26]),
        1 => made.snapshot = r.edge_32(),
        2 => made.btree = r.pick(&[LRU, NEED_DISCARD]),
        _ => {}
    }
    book.keys.push(made);
}

/// Kinds 48, 49: a bucket that is free, in use, or without a type.
fn add_alloc(r: &mut Random, book: &mut Book) {
    let data_type = match r.below(8) {
        0..=2 => Some(0),
        3 => None,
        4 => Some(r.next() as u8),
        _ => Some(1 + r.below(11) as u8),
    };
    book.alloc.push((bucket(r, book), data_type));
}

/// Kind 46: keys with generations, and a table that agrees with them or differs.
fn generations(r: &mut Random, book: &mut Book) {
    for _ in 0..r.below(4) {
        let offset = r.pick(&[0, 0, 1, 2, 255, (1 << 24) - 1, 1 << 24, (1 << 56) - 1, 1 << 56, (1 << 56) + 1, 1 << 57, u64::MAX]);
        let value = recorded(r);
        let exact = r.one_in(2);
        entries(r, book, offset << 8, &value, exact);
        let device = if r.one_in(16) { r.edge_64() } else { book.device };
        let key_type = if r.one_in(16) { r.pick(&[0, 1, 29, 31]) } else { T_BUCKET_GENS };
        if !r.one_in(16) {
            book.keys.push(key(BUCKET_GENS, key_type, device, offset, value));
        }
    }
    if r.one_in(4) {
        book.gens.push((bucket(r, book), r.below(3) as u8));
    }
}

/// A few generations, or in one of sixteen about 256, most of them 0.
fn recorded(r: &mut Random) -> Vec<u8> {
    let long = r.one_in(16);
    let length = if long { r.pick(&[254, 255, 256, 256, 257, 258, 300]) } else { r.pick(&[0, 1, 1, 2, 3, 5, 8]) };
    let mut value = vec![0; length];
    for _ in 0..length.min(4) {
        value[r.place(length)] = r.pick(&[0, 1, 2, 128, 255]);
    }
    if long && r.one_in(2) {
        value[length - 1] = 1;
    }
    value
}

/// Entries for the generations of a key that are not 0; if not exactly, some are left out, others, or stand past the value.
fn entries(r: &mut Random, book: &mut Book, first: u64, value: &[u8], exact: bool) {
    for (i, generation) in value.iter().take(256).enumerate().filter(|(_, g)| **g != 0) {
        match r.below(8) {
            0 if !exact => book.gens.push((first | i as u64, generation.wrapping_add(1))),
            1 if !exact => {}
            _ => book.gens.push((first | i as u64, *generation)),
        }
    }
    if !exact {
        let past = r.pick(&[0, 1, value.len() as u64, 255, 256]);
        book.gens.push((first.wrapping_add(past), r.below(3) as u8));
    }
}
