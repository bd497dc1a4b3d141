//! Drawn books: small ones at the edges of what counts as a parent, forests, and chains by keys.

use super::random::Random;
use super::values::*;
use super::world::World;
use super::{chains, damaged, fields, forest, mixed};
use crate::layout::{Book, Key};

/// Lengths around 8, 24 and 40, from which on a key has a parent, has a tree, and is judged.
const LENGTHS: [usize; 9] = [7, 8, 9, 23, 24, 39, 40, 41, 64];
/// Lengths with which a key of a long chain has a parent and is not judged.
const UNJUDGED: [usize; 5] = [8, 9, 23, 24, 39];
/// Btrees and types of which only one is a snapshot's.
const MISPLACED: [(u8, u8); 6] =
    [(SUBVOLUMES, T_SNAPSHOT), (LRU, T_SNAPSHOT), (TREES, T_SNAPSHOT), (SNAPSHOTS, T_SUBVOLUME), (SNAPSHOTS, T_SET), (SNAPSHOTS, T_TREE)];
/// What may stand above the id in an offset.
const HIGH_HALVES: [u64; 6] = [0, 0, 0, 1 << 32, 1 << 63, !LOW_HALF];
const LOW_HALF: u64 = 0xffff_ffff;

/// Leaves out the parents table, and has the parents drawn.
pub fn draw(book: &mut Book) {
    book.drawn = true;
    book.parents.clear();
}

/// Gives one in eight snapshots a value of another length.
pub fn shorten(r: &mut Random, keys: &mut [Key]) {
    for key in keys.iter_mut().filter(|k| k.btree == SNAPSHOTS) {
        if r.one_in(8) {
            key.value.resize(r.pick(&LENGTHS), 0);
        }
    }
}

/// A small book; one in sixteen has a parents table too (refusal 12), of which half are damaged, and of the others one in 32.
pub fn book(r: &mut Random) -> Vec<u8> {
    let mut book = small(r);
    let has_table = r.one_in(16);
    if has_table {
        // also one that is out of order
        book.parents = [(3, 0), (r.below(6) as u32, 3)][r.place(2)..].to_vec();
    }
    let mut bytes = book.encode();
    if r.one_in(if has_table { 2 } else { 32 }) {
        damaged::damage(r, &book, &mut bytes);
    }
    bytes
}

/// Snapshots of all lengths over few ids, of which one may be 0, with subvolumes and tree records.
pub fn small(r: &mut Random) -> Book {
    let mut book = Book { mark: !r.one_in(4), version: r.pick(&VERSIONS), ..Book::default() };
    let w = &mut World::new(r, book.device);
    if w.r.one_in(4) {
        w.ids[0] = 0;
    }
    mixed::add_links(w, &mut book.keys);
    let count = 1 + w.r.below(7);
    book.keys.extend((0..count).map(|_| snapshot(w)));
    book.keys.retain(|k| book.mark || k.btree != TREES);
    mixed::tables(w, &mut book);
    match r.below(4) {
        0 => {}
        1 => book.keys.sort_by_key(|k| k.offset),
        _ => r.shuffle(&mut book.keys),
    }
    sort_tables(&mut book);
    draw(&mut book);
    book
}

/// A snapshot; one in eight is of a btree or a type in which it has no parent.
fn snapshot(w: &mut World) -> Key {
    let mut made = fields::snapshot(w);
    made.value.resize(w.r.pick(&LENGTHS), 0);
    made.offset = made.offset & LOW_HALF | w.r.pick(&HIGH_HALVES);
    misplace(w.r, &mut made, 8);
    made
}

/// In one of n gives a snapshot another btree or type.
fn misplace(r: &mut Random, snapshot: &mut Key, n: u64) {
    if r.one_in(n) {
        (snapshot.btree, snapshot.key_type) = r.pick(&MISPLACED);
    }
}

/// A forest book without its table.
pub fn forest(r: &mut Random) -> Book {
    let mut book = forest::book(r);
    draw(&mut book);
    book
}

/// A book of `chains` whose table became keys: in rising order of id in five of eight, else in falling order or in none; in half with a slip or two.
/// Long ones are fewer, since a question over keys in no order may take a walk over all of them for each link.
pub fn chain(r: &mut Random) -> Book {
    let mut book = chains::some_long(r, 16);
    add_links(r, &mut book);
    book.keys.sort_by_key(|k| k.offset);
    match r.below(8) {
        0 => book.keys.reverse(),
        1 | 2 => r.shuffle(&mut book.keys),
        _ => {}
    }
    for _ in 0..r.pick(&[0, 0, 1, 2]) {
        slip(r, &mut book.keys);
    }
    book.keys.retain(|k| book.mark || k.btree != TREES);
    draw(&mut book);
    book
}

/// Adds a key that is not judged for each entry of the parents table, but in seven of eight books not for ids that a key has already.
pub fn add_links(r: &mut Random, book: &mut Book) {
    let judged: Vec<u64> = book.keys.iter().filter(|k| k.btree == SNAPSHOTS).map(|k| k.offset).collect();
    let (length, has_twins) = (r.pick(&UNJUDGED), r.one_in(8));
    for &(id, parent) in &book.parents {
        if has_twins || !judged.contains(&id.into()) {
            let length = if r.one_in(16) { r.pick(&UNJUDGED) } else { length };
            let words = Snapshot { parent, ..Snapshot::default() };
            book.keys.push(key(SNAPSHOTS, T_SNAPSHOT, 0, id.into(), words.value(length)));
        }
    }
}

/// One change to the keys of a chain: two are exchanged, one goes, is cut to 7 bytes, has another parent, has a twin beside it, which may have no
/// parent, or behind all others with a larger offset; or all offsets from one on are above 32 bits.
fn slip(r: &mut Random, keys: &mut Vec<Key>) {
    let (place, other) = (r.place(keys.len()), r.place(keys.len()));
    let (next, id) = ((place + 1) % keys.len(), keys[other].offset as u32);
    let mut twin = keys[place].clone();
    if r.one_in(2) {
        set_parent(r, &mut twin, id);
    }
    match r.below(9) {
        0 => keys.swap(place, other),
        1 => keys.swap(place, next),
        2 if keys.len() > 1 => drop(keys.remove(place)),
        3 => keys[place].value.truncate(7),
        4 | 5 => {
            misplace(r, &mut twin, 2);
            keys.insert(place + r.place(2), twin);
        }
        6 => keys.push(Key { offset: twin.offset.wrapping_add(1 << 32), ..twin }),
        7 => keys[place..].iter_mut().for_each(|k| k.offset |= 1 << 32),
        _ => set_parent(r, &mut keys[place], id),
    }
}

/// Another parent: none, the key itself, a neighbour, or this other id.
fn set_parent(r: &mut Random, key: &mut Key, other: u32) {
    let id = key.offset as u32;
    let parent = r.pick(&[0, id, id.wrapping_sub(1), id.wrapping_add(2), other, other]);
    put(&mut key.value, PARENT_WORD, &parent.to_le_bytes());
}
