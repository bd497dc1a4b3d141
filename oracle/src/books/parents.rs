//! Parents tables about as long as they may be, whole, cut or out of order, or with the drawn mark; and drawn books
//! with more snapshots than a table may have entries.

use super::forest::distinct;
use super::random::Random;
use super::values::*;
use super::{damaged, drawn};
use crate::layout::{Book, Key, DRAWN_MARK, HEADER_BYTES, MOST_PARENTS};

/// Numbers of entries: about the most that are taken, more, and the most that a count tells.
const ENTRIES: [u16; 8] = [MOST_PARENTS - 1, MOST_PARENTS, MOST_PARENTS, MOST_PARENTS + 1, MOST_PARENTS + 1, MOST_PARENTS + 2, 5_000, u16::MAX];
/// Lengths of chains, of which some are too long for a root and one is that of a whole table.
const CHAINS: [usize; 5] = [2, 100, 1_024, 1_026, MOST_PARENTS as usize];
const TREE: u32 = 1;

/// One in eight has its parents drawn from its keys.
pub fn book(r: &mut Random) -> Vec<u8> {
    if r.one_in(8) {
        let count = usize::from(MOST_PARENTS) + r.place(1_000);
        let mut book = with_parents(r, count);
        drawn::add_links(r, &mut book);
        book.keys.sort_by_key(|k| k.offset);
        if r.one_in(8) {
            r.shuffle(&mut book.keys);
        }
        drawn::draw(&mut book);
        return book.encode();
    }
    let count = r.pick(&ENTRIES).into();
    let book = with_parents(r, count);
    let mut bytes = book.encode();
    change(r, &book, &mut bytes);
    bytes
}

/// Half of the books stay as they are; the others are cut in their table, have an entry twice or another damage, or get
/// the drawn mark.
fn change(r: &mut Random, book: &Book, bytes: &mut Vec<u8>) {
    let entry = HEADER_BYTES + 8 * r.place(book.parents.len() - 1);
    match r.below(8) {
        0 => bytes.truncate(entry + r.place(9)),
        1 => bytes.copy_within(entry..entry + 8, entry + 8),
        2 => damaged::damage(r, book, bytes),
        3 => bytes[0] |= DRAWN_MARK,
        _ => {}
    }
}

/// A book with so many entries, and up to 24 snapshots that are judged by them.
fn with_parents(r: &mut Random, count: usize) -> Book {
    let mut book = Book { mark: !r.one_in(8), version: r.pick(&VERSIONS), ..Book::default() };
    let (ids, shape, length) = (distinct(r, count), r.below(6), r.pick(&CHAINS));
    book.parents = (0..count).map(|place| (ids[place], above(r, &ids, place, shape, length))).collect();
    for _ in 0..r.pick(&[0, 1, 2, 4, 24]) {
        let any = r.place(count);
        let place = r.pick(&[0, count - 1, any, any, any]);
        book.keys.push(snapshot(r, &book, &ids, place, place % length));
    }
    if book.mark {
        book.keys.push(key(TREES, T_TREE, 0, TREE.into(), tree_value(1, ids[0], 8)));
    }
    book.subvolumes.push((1, ids[0]));
    sort_tables(&mut book);
    book
}

/// The parent of the id at a place: chains of a length (0, 1), each its own parent (2), rings of two (3), one ring (4),
/// or any id before it; one in 1,000 is none.
fn above(r: &mut Random, ids: &[u32], place: usize, shape: u64, length: usize) -> u32 {
    let at = match shape {
        _ if r.one_in(1_000) => ids.len(),
        0 | 1 if place.is_multiple_of(length) => ids.len(),
        0 | 1 => place - 1,
        2 => place,
        3 => place ^ 1,
        4 => (place + 1) % ids.len(),
        _ if place == 0 => ids.len(),
        _ => r.place(place),
    };
    ids.get(at).copied().unwrap_or(0)
}

/// The snapshot at a place, as it is in chains; one in four of its words is another.
fn snapshot(r: &mut Random, book: &Book, ids: &[u32], place: usize, depth: usize) -> Key {
    let root = ids[place - depth];
    let mut word = |right: u32| if r.one_in(4) { r.pick(ids) } else { right };
    let words = Snapshot {
        parent: book.parents[place].1,
        children: [word(0), word(0)],
        tree: word(TREE),
        depth: word(depth as u32),
        skip: [word(root), word(book.parents[place].1), word(0)],
        ..Snapshot::default()
    };
    key(SNAPSHOTS, T_SNAPSHOT, 0, ids[place].into(), words.value(64))
}
