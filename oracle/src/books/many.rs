//! Long books: 1,000 to 15,000 keys of every btree and type, over pools of ids that are small or large. One in four is
//! filled up to a mebibyte, or to a byte more, which is refused.

use super::random::Random;
use super::values::*;
use super::world::World;
use super::{damaged, drawn, fields, mixed, runs};
use crate::layout::{Book, Key, HEADER_BYTES, KEY_HEAD_BYTES, LONGEST_BOOK, LONGEST_VALUE};

/// Lengths of values at which some rule changes, and the longest.
const LENGTHS: [usize; 17] = [0, 1, 3, 4, 7, 8, 16, 20, 24, 32, 40, 44, 48, 60, 64, 256, LONGEST_VALUE];

pub fn book(r: &mut Random) -> Book {
    let most = r.pick(&[1_500, 3_000, 6_000, 15_000]);
    let count = 1_000 + r.place(most - 999);
    let mut book = Book { mark: !r.one_in(8), version: r.pick(&VERSIONS), device: r.pick(&[0, 0, 1, u64::MAX]), ..Book::default() };
    runs::add_many(r, &mut book, count / 16);
    let mut keys = std::mem::take(&mut book.keys);
    let (ids, longest) = (pool(r, count), r.pick(&[256, LONGEST_VALUE]));
    let w = &mut World::new(r, book.device);
    while keys.len() < count {
        w.ids = [w.r.pick(&ids), w.r.pick(&ids), w.r.pick(&ids), w.r.pick(&ids)];
        let mut some = vec![any(w, longest)];
        mixed::add_links(w, &mut some);
        mixed::add_fields(w, &mut some);
        keys.extend(some.into_iter().filter(|k| book.mark || k.btree != TREES));
    }
    keys.truncate(count);
    book.keys = keys;
    mixed::tables(w, &mut book);
    if !r.one_in(4) {
        r.shuffle(&mut book.keys);
    }
    sort_tables(&mut book);
    if r.one_in(3) {
        drawn::shorten(r, &mut book.keys);
        drawn::draw(&mut book);
    }
    let left = cut(&mut book);
    if r.one_in(4) {
        damaged::fill(&mut book, left + r.place(2));
    }
    book
}

/// Ids from which links are drawn, so few that most are there many times, or so many that some are there once.
fn pool(r: &mut Random, count: usize) -> Vec<u32> {
    let size = r.pick(&[64, 500, count / 4, count]) as u32;
    match r.below(3) {
        0 => (1..=size).collect(),
        1 => (0..size).map(|i| u32::MAX - i).collect(),
        _ => (0..size).map(|_| r.next() as u32).collect(),
    }
}

/// Any btree and type, with a value of zeros or of any bytes, of a length that some rule reads.
fn any(w: &mut World, longest: usize) -> Key {
    let r = &mut *w.r;
    let (btree, key_type) = fields::any_pair(r);
    let length = r.pick(&LENGTHS).min(longest);
    let value = if r.one_in(2) { r.bytes(length) } else { vec![0; length] };
    let inode = r.pick(&[0, 0, 1, w.device]);
    Key { btree, key_type, size: r.pick(&[0, 0, 1, u32::MAX]), inode, offset: r.edge_64(), snapshot: r.pick(&[0, 0, 1, u32::MAX]), value }
}

/// Leaves out the last keys of a book that is too long; at least a key's head fits behind the others. Answers how many
/// bytes are left.
fn cut(book: &mut Book) -> usize {
    let tables = 8 * (book.parents.len() + book.subvolumes.len()) + 9 * book.gens.len() + 10 * book.alloc.len();
    let mut left = LONGEST_BOOK - HEADER_BYTES - tables;
    let size = |key: &Key| KEY_HEAD_BYTES + key.value.len();
    let mut count = 0;
    while count < book.keys.len() && size(&book.keys[count]) + KEY_HEAD_BYTES <= left {
        left -= size(&book.keys[count]);
        count += 1;
    }
    book.keys.truncate(count);
    left
}
