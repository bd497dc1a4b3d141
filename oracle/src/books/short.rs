//! Short books in order of length, alone and after headers with counts of 0 and 1.

use super::random::Random;
use crate::layout::{Book, KEY_HEAD_BYTES};

/// Headers with each of the five counts 0 or 1, each of the two marks set or clear.
const HEADERS: u64 = 128;

/// Even indexes give the byte strings in order of length. Of the odd ones every fourth gives the strings in this order after header 0, so that
/// 526,338 indexes hold all of up to 2 bytes; the next gives them after each header in turn; the others give up to 40 bytes drawn from the seed.
pub fn book(r: &mut Random, index: u64) -> Vec<u8> {
    let half = index / 2;
    if index.is_multiple_of(2) {
        return string(half);
    }
    let (sort, turn) = (half % 4, half / 4);
    let number = if sort == 0 { 0 } else { turn % HEADERS };
    let mut bytes = header(number);
    match sort {
        0 => bytes.extend(string(turn)),
        1 => bytes.extend(string(turn / HEADERS)),
        _ => bytes.extend(any_bytes(r, number)),
    }
    bytes
}

/// The byte string of a number in order of length, strings of one length in order of their bytes.
fn string(number: u64) -> Vec<u8> {
    let (mut left, mut length, mut count) = (number, 0, 1);
    while left >= count && length < 7 {
        left -= count;
        count <<= 8;
        length += 1;
    }
    left.to_be_bytes()[8 - length..].to_vec()
}

/// The header of a number below 128: bit 0 is the trees mark, bits 1 to 5 are the counts of parents, subvolumes, gens, alloc and keys, bit 6 is the
/// drawn mark.
fn header(number: u64) -> Vec<u8> {
    let mut bytes = Book { mark: number & 1 == 1, drawn: number >> 6 == 1, version: 1063, buckets: 2, ..Book::default() }.encode();
    for (bit, at) in [(1, 25), (2, 27), (3, 29), (4, 31), (5, 7)] {
        bytes[at] = (number >> bit & 1) as u8;
    }
    bytes
}

/// Up to 40 bytes: any, mostly zeros, or about what the header asks for.
fn any_bytes(r: &mut Random, number: u64) -> Vec<u8> {
    let length = match r.below(4) {
        0 => r.place(41),
        1 => (asked_bytes(number) + r.place(3)).saturating_sub(1).min(40),
        _ => asked_bytes(number).min(40),
    };
    let mut bytes = if r.one_in(4) { r.bytes(length) } else { vec![0; length] };
    for _ in 0..r.below(5).min(length as u64) {
        bytes[r.place(length)] = r.pick(&[1, 2, 0x20, 0x80, 255, 9, 15, 11, 25]);
    }
    bytes
}

/// The bytes that a header's entries take if values are empty.
fn asked_bytes(number: u64) -> usize {
    [8, 8, 9, 10, KEY_HEAD_BYTES].iter().enumerate().map(|(i, bytes)| bytes * (number >> (i + 1) & 1) as usize).sum()
}
