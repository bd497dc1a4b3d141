//! Parents tables that are chains, around 1,024 links long or short, with few keys to judge.

use super::random::Random;
use super::values::*;
use crate::layout::{Book, Key};

/// Ids from the foot upwards; each but the last has the next as its parent.
struct Chain {
    ids: Vec<u32>,
    /// The parent word of the last.
    last: u32,
    /// An id that is not in the table.
    absent: u32,
}

/// One in eight has a long chain.
pub fn book(r: &mut Random) -> Book {
    some_long(r, 8)
}

/// One in n has a long chain.
pub fn some_long(r: &mut Random, n: u64) -> Book {
    if !r.one_in(n) {
        return short(r);
    }
    let links = 1023 + r.place(4);
    with_links(r, links)
}

pub fn short(r: &mut Random) -> Book {
    let links = if r.one_in(2) { r.place(4) } else { r.place(41) };
    with_links(r, links)
}

fn with_links(r: &mut Random, links: usize) -> Book {
    let chain = chain(r, links);
    let mut book = Book { mark: !r.one_in(16), version: r.pick(&VERSIONS), ..Book::default() };
    let above = chain.ids.iter().skip(1).chain([&chain.last]);
    book.parents = chain.ids.iter().copied().zip(above.copied()).collect();
    extra_entries(r, &chain, &mut book);
    add_keys(r, &chain, &mut book);
    sort_tables(&mut book);
    book
}

/// A chain that ends at a root, at an absent id, at itself, at its foot, or in its middle.
fn chain(r: &mut Random, links: usize) -> Chain {
    let mut ids = chain_ids(r, links + 2);
    let absent = ids.pop().unwrap_or(0);
    let last = match r.below(12) {
        0 => absent,
        1 => ids[links],
        2 => ids[0],
        3 | 4 => ids[r.place(links + 1)],
        _ => 0,
    };
    Chain { ids, last, absent }
}

/// Distinct ids that are not 0: rising, falling or scattered.
fn chain_ids(r: &mut Random, count: usize) -> Vec<u32> {
    let count = count as u32;
    let top = r.pick(&[u32::MAX, u32::MAX - 1, 0x8000_0000, 5000]);
    match r.below(4) {
        0 => (1..=count).collect(),
        1 => (0..count).map(|i| top - i).collect(),
        2 => (0..count).map(|i| top - count + 1 + i).collect(),
        _ => {
            let (first, step) = (r.next() as u32 | 1, (r.next() as u32 | 1) << 1);
            (0..count).map(|i| first.wrapping_add(i.wrapping_mul(step))).collect()
        }
    }
}

/// Now and then an entry of id 0, a second chain of one link into the chain, or a root beside it.
fn extra_entries(r: &mut Random, chain: &Chain, book: &mut Book) {
    let beside = (chain.absent ^ 0x4000_0000).max(1);
    match r.below(8) {
        0 => book.parents.push((0, chain.ids[0])),
        1 => book.parents.push((beside, r.pick(&chain.ids))),
        2 => book.parents.push((beside, 0)),
        _ => {}
    }
}

/// Snapshots near the foot, in the middle and near the top, at most three, and a tree.
fn add_keys(r: &mut Random, chain: &Chain, book: &mut Book) {
    let top = chain.ids.len() - 1;
    let mut places = vec![r.place(4).min(top), r.place(top + 1), top - r.place(2).min(top)];
    places.truncate(1 + r.place(3));
    let tree = r.pick(&[1, 2, u32::MAX]);
    for place in places {
        book.keys.push(snapshot_key(r, chain, place, tree));
    }
    let (subvolume, foot) = (r.pick(&[1, 1, 1, 9]), chain.ids[0]);
    book.subvolumes.push((1, foot));
    if book.mark && !r.one_in(8) {
        let root = if r.one_in(8) { chain_id(r, chain, 0) } else { chain.ids[top] };
        book.keys.push(key(TREES, T_TREE, 0, tree.into(), tree_value(subvolume, root, 8)));
    }
}

/// Kinds 41, 42, 44, 45: a snapshot of the chain with true words, each in one of eight near the truth.
fn snapshot_key(r: &mut Random, chain: &Chain, place: usize, tree: u32) -> Key {
    let mut depth = (chain.ids.len() - 1 - place) as u32;
    if r.one_in(8) {
        depth = r.pick(&[0, 1023, 1024, 1025, depth + 1, depth.wrapping_sub(1)]);
    }
    let below = if place == 0 { 0 } else { chain.ids[place - 1] };
    let child = if r.one_in(8) { chain_id(r, chain, place) } else { below };
    let words = Snapshot {
        flags: if place == 0 { 2 } else { 0 },
        parent: chain.ids.get(place + 1).copied().unwrap_or(chain.last),
        children: if r.one_in(2) { [child, 0] } else { [0, child] },
        subvolume: u32::from(place == 0),
        tree: if r.one_in(16) { r.edge_32() } else { tree },
        depth,
        skip: [skip_word(r, chain, place), skip_word(r, chain, place), skip_word(r, chain, place)],
        state: SNAPSHOT_STATES[0],
        pad: 0,
    };
    key(SNAPSHOTS, T_SNAPSHOT, 0, chain.ids[place].into(), words.value(64))
}

/// None, an ancestor, or in one of sixteen any id.
fn skip_word(r: &mut Random, chain: &Chain, place: usize) -> u32 {
    match r.below(16) {
        0 => chain_id(r, chain, place),
        1..=5 => 0,
        6..=8 => chain.ids[(place + 1023 + r.place(3)).min(chain.ids.len() - 1)],
        _ => chain.ids[place + r.place(chain.ids.len() - place)],
    }
}

/// An id of the chain, one at a limit above a place, or an absent one.
fn chain_id(r: &mut Random, chain: &Chain, place: usize) -> u32 {
    let at = |links: usize| chain.ids.get(place + links).copied().unwrap_or(chain.last);
    match r.below(8) {
        0 => chain.absent,
        1 => 0,
        2 => chain.ids[0],
        3 => at(1023),
        4 => at(1024),
        5 => at(1025),
        _ => r.pick(&chain.ids),
    }
}
