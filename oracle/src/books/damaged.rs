//! Damaged books: every refusal from 1 to 8, 12 and 13.

use super::random::Random;
use super::values::*;
use super::{chains, drawn, forest, mixed, runs};
use crate::layout::{Book, DRAWN_MARK, HEADER_BYTES, KEY_HEAD_BYTES, LONGEST_BOOK, LONGEST_VALUE, MOST_PARENTS, TREES_MARK};

/// The bytes of the five counts in the header: keys, parents, subvolumes, gens, alloc.
const COUNTS: [usize; 5] = [6, 24, 26, 28, 30];

pub fn book(r: &mut Random) -> Vec<u8> {
    if r.one_in(10_000) {
        return longest(r);
    }
    if r.one_in(16) {
        return noise(r);
    }
    let mut book = match r.below(5) {
        0 => mixed::book(r),
        1 => chains::short(r),
        2 => forest::book(r),
        3 => drawn::small(r),
        _ => runs::book(r),
    };
    if r.one_in(4) {
        disorder(r, &mut book);
    }
    let mut bytes = book.encode();
    for _ in 0..r.pick(&[0, 1, 1, 1, 2, 3]) {
        damage(r, &book, &mut bytes);
    }
    bytes
}

/// Refusal 1: a book of one byte more than the longest, or up to 16; else exactly the longest. Of whole keys, or a header and zeros.
fn longest(r: &mut Random) -> Vec<u8> {
    let length = LONGEST_BOOK + if r.one_in(2) { 0 } else { r.pick(&[1, 1, 1, 2, 16]) };
    let mut book = Book { mark: r.one_in(2), ..Book::default() };
    if r.one_in(4) {
        let mut bytes = book.encode();
        bytes.resize(length, 0);
        return bytes;
    }
    fill(&mut book, length - HEADER_BYTES);
    book.encode()
}

/// Adds keys that no rule judges and that take so many bytes, at least those of a head.
pub fn fill(book: &mut Book, mut left: usize) {
    while left > 0 {
        let value = if left >= 2 * (KEY_HEAD_BYTES + LONGEST_VALUE) { LONGEST_VALUE } else { (left / 2).min(LONGEST_VALUE) };
        let value = if left <= KEY_HEAD_BYTES + LONGEST_VALUE { left - KEY_HEAD_BYTES } else { value };
        book.keys.push(key(30, 0, 0, 0, vec![0; value]));
        left -= KEY_HEAD_BYTES + value;
    }
}

/// Bytes of no book, alone or after a header with small counts.
fn noise(r: &mut Random) -> Vec<u8> {
    let mut bytes = Vec::new();
    if !r.one_in(3) {
        bytes = Book { mark: r.one_in(2), drawn: r.one_in(4), buckets: r.below(4), ..Book::default() }.encode();
        for count in COUNTS {
            bytes[count + 1] = r.pick(&[0, 0, 0, 0, 1, 2]);
        }
    }
    let length = r.place(80);
    bytes.extend(r.bytes(length));
    bytes
}

/// Refusals 6, 7: entries exchanged or doubled, or the mark cleared.
fn disorder(r: &mut Random, book: &mut Book) {
    match r.below(5) {
        0 => exchange(r, &mut book.parents, [(3, 0), (5, 3)]),
        1 => exchange(r, &mut book.subvolumes, [(1, 3), (u32::MAX, 5)]),
        2 => exchange(r, &mut book.gens, [(0, 1), (256, 2)]),
        3 => exchange(r, &mut book.alloc, [(1, None), (u64::MAX, Some(4))]),
        _ => book.mark = false,
    }
}

/// Exchanges two entries or doubles one; a table of less than two is first given two.
fn exchange<T: Copy>(r: &mut Random, table: &mut Vec<T>, two: [T; 2]) {
    if table.len() < 2 {
        *table = two.to_vec();
    }
    let (first, second) = (r.place(table.len()), r.place(table.len()));
    if first == second {
        table.insert(first, table[second]);
    } else {
        table.swap(first, second);
    }
}

/// One damage to the bytes of a book; the book tells where its entries stood.
pub fn damage(r: &mut Random, book: &Book, bytes: &mut Vec<u8>) {
    match r.below(13) {
        0 | 1 => flip(r, bytes, 0..usize::MAX),
        2 => overwrite(r, bytes),
        3 => bytes.truncate(r.place(bytes.len() + 1)),
        4 => {
            let start = entry_start(r, book);
            bytes.truncate(r.near(start as u64) as usize);
        }
        5 => {
            let count = 1 + r.place(5);
            let tail = if r.one_in(2) { vec![0; count] } else { r.bytes(count) };
            bytes.extend(tail);
        }
        6 | 7 => recount(r, bytes),
        8 => flip(r, bytes, 0..2),
        9 if !book.alloc.is_empty() => {
            let start = key_start(book, 0) - 10 * (1 + r.place(book.alloc.len()));
            flip(r, bytes, start + 8..start + 10);
        }
        10 if !book.keys.is_empty() => {
            let start = key_start(book, r.place(book.keys.len()));
            flip(r, bytes, start + 3..start + 4);
        }
        11 => change_marks(bytes, |first| first ^ DRAWN_MARK),
        _ => change_marks(bytes, |first| first & !TREES_MARK),
    }
}

/// Changes the first byte, if it is there.
fn change_marks(bytes: &mut [u8], change: fn(u8) -> u8) {
    if let Some(first) = bytes.first_mut() {
        *first = change(*first);
    }
}

/// Flips one bit in a range of bytes, as far as they are there.
fn flip(r: &mut Random, bytes: &mut [u8], range: std::ops::Range<usize>) {
    let end = range.end.min(bytes.len());
    if range.start < end {
        bytes[range.start + r.place(end - range.start)] ^= 1 << r.below(8);
    }
}

fn overwrite(r: &mut Random, bytes: &mut [u8]) {
    if !bytes.is_empty() {
        let place = r.place(bytes.len());
        bytes[place] = r.pick(&[0, 1, 0x10, 0x18, 0x1c, 0x80, 0xff, 15]);
    }
}

/// Raises or lowers one count in the header.
fn recount(r: &mut Random, bytes: &mut [u8]) {
    let at = r.pick(&COUNTS);
    if let Some(&[high, low]) = bytes.get(at..at + 2) {
        let count = u16::from_be_bytes([high, low]);
        let change = r.pick(&[1, 1, 2, 0xffff, 0xffff, 0xfffe, 0x100, MOST_PARENTS, MOST_PARENTS]);
        bytes[at..at + 2].copy_from_slice(&count.wrapping_add(change).to_be_bytes());
    }
}

/// The start of the key of an index, or the end of the keys.
fn key_start(book: &Book, index: usize) -> usize {
    let tables = 8 * (book.parents.len() + book.subvolumes.len()) + 9 * book.gens.len() + 10 * book.alloc.len();
    let keys: usize = book.keys.iter().take(index).map(|k| KEY_HEAD_BYTES + k.value.len()).sum();
    HEADER_BYTES + tables + keys
}

/// The start of some entry, the start of a key's value, or the end.
fn entry_start(r: &mut Random, book: &Book) -> usize {
    match r.below(6) {
        0 => HEADER_BYTES,
        1 => HEADER_BYTES + 8 * r.place(book.parents.len() + 1),
        2 => key_start(book, 0) - 10 * r.place(book.alloc.len() + 1),
        3 => key_start(book, r.place(book.keys.len() + 1)) + KEY_HEAD_BYTES,
        _ => key_start(book, r.place(book.keys.len() + 1)),
    }
}
