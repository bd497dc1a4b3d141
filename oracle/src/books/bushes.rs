//! Books with hundreds of snapshots: chains, bushes, rings and tails into rings, with tree records, in several orders.

use super::drawn;
use super::forest::distinct;
use super::random::Random;
use super::values::*;
use crate::layout::{Book, Key};

/// What stands above a snapshot: nothing, the snapshot at a place, or an id that no snapshot has.
#[derive(Clone, Copy)]
enum Above {
    Root,
    At(usize),
    Absent,
}

/// The snapshots of a book by their place.
struct Bush {
    ids: Vec<u32>,
    above: Vec<Above>,
    below: Vec<Vec<usize>>,
    /// The tree of each.
    trees: Vec<u32>,
    /// The first snapshot of each tree, with the tree.
    roots: Vec<(usize, u32)>,
    /// An id that no snapshot has.
    absent: u32,
    /// One in so many words is another; 0 for none.
    slips: u64,
}

pub fn book(r: &mut Random) -> Book {
    let bush = &grow(r);
    let mut book = Book { mark: !r.one_in(16), version: r.pick(&VERSIONS), ..Book::default() };
    let count = bush.ids.len();
    book.parents = (0..count).map(|place| (bush.ids[place], bush.parent(place))).collect();
    book.keys = order(r, bush).into_iter().map(|place| snapshot_key(r, bush, place)).collect();
    double(r, bush, &mut book.keys);
    add_subvolumes(r, bush, &mut book);
    if book.mark {
        add_trees(r, bush, &mut book);
    }
    if r.one_in(4) {
        scatter(r, &mut book.keys);
    }
    if r.one_in(3) {
        make_false(r, bush, &mut book.parents);
    }
    sort_tables(&mut book);
    if r.one_in(3) {
        drawn::shorten(r, &mut book.keys);
        drawn::draw(&mut book);
    }
    book
}

/// One to six trees of 100 to 600 snapshots in all; one in sixteen books has about 1,024 or more.
fn grow(r: &mut Random) -> Bush {
    let count = if r.one_in(16) { 1_020 + r.place(80) } else { 100 + r.place(501) };
    let trees = r.pick(&[1, 1, 2, 3, 6]);
    let mut ids = distinct(r, count + 1);
    let absent = ids.pop().unwrap_or(0);
    let names = distinct(r, trees);
    let slips = r.pick(&[0, 0, 1_000, 1_000, 50]);
    let mut bush = Bush { ids, above: Vec::new(), below: vec![Vec::new(); count], trees: Vec::new(), roots: Vec::new(), absent, slips };
    for (i, &name) in names.iter().enumerate() {
        let start = bush.above.len();
        let length = if i + 1 < trees { 1 + r.place(2 * count / trees) } else { count };
        add_tree(r, &mut bush, length.min(count - start), name);
    }
    for place in 0..count {
        if let Above::At(parent) = bush.above[place] {
            bush.below[parent].push(place);
        }
    }
    bush
}

/// Adds a tree of so many snapshots: a chain below an absent id (0), a tail into a ring (1), a bush on a ring (2), a bush
/// (3), two children each (4), a chain with branches (5), or a chain.
fn add_tree(r: &mut Random, bush: &mut Bush, length: usize, name: u32) {
    let start = bush.above.len();
    if length == 0 {
        return;
    }
    bush.roots.push((start, name));
    bush.trees.resize(start + length, name);
    let ring = 1 + if r.one_in(2) { r.place(length) } else { r.place(length.min(8)) };
    let sort = r.below(8);
    for i in 0..length {
        let above = match (sort, i) {
            (0, 0) => Above::Absent,
            (1 | 2, 0) => Above::At(start + ring - 1),
            (_, 0) => Above::Root,
            (1 | 2, _) if i < ring => Above::At(start + i - 1),
            (1, _) if i == ring => Above::At(start + r.place(ring)),
            (2 | 3, _) => Above::At(start + r.place(i)),
            (4, _) => Above::At(start + (i - 1) / 2),
            (5, _) if r.one_in(8) => Above::At(start + r.place(i)),
            _ => Above::At(start + i - 1),
        };
        bush.above.push(above);
    }
}

impl Bush {
    /// The parent word of the snapshot at a place.
    fn parent(&self, place: usize) -> u32 {
        match self.above[place] {
            Above::Root => 0,
            Above::At(parent) => self.ids[parent],
            Above::Absent => self.absent,
        }
    }

    /// The places above a place, and whether the last is a root; of a ring as many as it has.
    fn line(&self, place: usize) -> (Vec<usize>, bool) {
        let mut line = Vec::new();
        let mut at = place;
        while let Above::At(parent) = self.above[at] {
            if line.len() == self.ids.len() {
                return (line, false);
            }
            line.push(parent);
            at = parent;
        }
        (line, matches!(self.above[at], Above::Root))
    }

    /// A word, or in its place now and then another: an id of the book, none, a neighbour, or one that is absent.
    fn word(&self, r: &mut Random, word: u32) -> u32 {
        if self.slips == 0 || !r.one_in(self.slips) {
            return word;
        }
        match r.below(8) {
            0 => 0,
            1 => self.absent,
            2 => r.edge_32(),
            3 => r.near(word.into()) as u32,
            _ => r.pick(&self.ids),
        }
    }
}

/// The places in the order of their keys: in turn, from each down to its children, the children of one together,
/// backwards, in stretches or in no order.
fn order(r: &mut Random, bush: &Bush) -> Vec<usize> {
    let mut places: Vec<usize> = (0..bush.ids.len()).collect();
    match r.below(6) {
        0 => {}
        1 => places = downwards(bush),
        2 => places.sort_by_key(|&place| bush.parent(place)),
        3 => places.reverse(),
        4 => {
            let length = 2 + r.place(30);
            let mut stretches: Vec<Vec<usize>> = places.chunks(length).map(<[usize]>::to_vec).collect();
            r.shuffle(&mut stretches);
            places = stretches.concat();
        }
        _ => r.shuffle(&mut places),
    }
    places
}

/// Each place before those below it, and these before the next beside it.
fn downwards(bush: &Bush) -> Vec<usize> {
    let mut places = Vec::new();
    let mut is_in = vec![false; bush.ids.len()];
    let mut next: Vec<usize> = (0..bush.ids.len()).rev().collect();
    while let Some(place) = next.pop() {
        if !is_in[place] {
            is_in[place] = true;
            places.push(place);
            next.extend(&bush.below[place]);
        }
    }
    places
}

/// Kinds 33 to 36, 41 to 45: true words, or others.
fn snapshot_key(r: &mut Random, bush: &Bush, place: usize) -> Key {
    let (line, has_root) = bush.line(place);
    let skip = |r: &mut Random| match r.below(4) {
        0 => 0,
        1 => bush.ids[place],
        _ if line.is_empty() => 0,
        _ => bush.ids[r.pick(&line)],
    };
    let skip = [skip(r), skip(r), skip(r)].map(|word| bush.word(r, word));
    let below = &bush.below[place];
    let child = |r: &mut Random| if below.is_empty() || r.one_in(4) { 0 } else { bush.ids[r.pick(below)] };
    let children = [child(r), child(r)].map(|word| bush.word(r, word));
    let subvolume = if place % 8 == 3 { bush.word(r, place as u32) } else { 0 };
    let depth = if has_root { line.len() as u32 } else { r.below(4) as u32 };
    let words = Snapshot {
        flags: if subvolume != 0 { 2 } else { 0 },
        parent: bush.word(r, bush.parent(place)),
        children,
        subvolume,
        tree: bush.word(r, bush.trees[place]),
        depth: bush.word(r, depth),
        skip,
        state: state(r, bush, &SNAPSHOT_STATES),
        pad: 0,
    };
    let length = if bush.slips == 0 { 64 } else { r.pick(&[64, 64, 64, 60, 40]) };
    key(SNAPSHOTS, T_SNAPSHOT, 0, bush.ids[place].into(), words.value(length))
}

/// The first state, or in one of 32 another where words slip.
fn state(r: &mut Random, bush: &Bush, states: &[u32]) -> u32 {
    match bush.slips != 0 && r.one_in(32) {
        true => r.pick(states),
        false => states[0],
    }
}

/// Puts some keys twice, beside the first or elsewhere, as they are or with another word.
fn double(r: &mut Random, bush: &Bush, keys: &mut Vec<Key>) {
    for _ in 0..r.pick(&[0, 0, 1, 4, 20]) {
        let place = r.place(keys.len());
        let mut twin = keys[place].clone();
        if r.one_in(2) {
            let at = 4 * r.place(10);
            put(&mut twin.value, at, &r.pick(&bush.ids).to_le_bytes());
        }
        let to = if r.one_in(2) { place + 1 } else { r.place(keys.len() + 1) };
        keys.insert(to, twin);
    }
}

/// Kinds 30, 31, 32, 43: the subvolumes that every eighth snapshot has, most of them live, with their table.
fn add_subvolumes(r: &mut Random, bush: &Bush, book: &mut Book) {
    for place in (3..bush.ids.len()).step_by(8) {
        let snapshot = bush.word(r, bush.ids[place]);
        book.subvolumes.push((place as u32, snapshot));
        let words = Subvolume { snapshot, state: state(r, bush, &SUBVOLUME_STATES), ..Subvolume::default() };
        book.keys.push(key(SUBVOLUMES, T_SUBVOLUME, 0, place as u64, words.value(48)));
    }
}

/// Kinds 31, 39, 40: the record of each tree, now and then none.
fn add_trees(r: &mut Random, bush: &Bush, book: &mut Book) {
    for &(root, name) in &bush.roots {
        let master = root + (11 - root % 8) % 8;
        let value = tree_value(bush.word(r, master as u32), bush.word(r, bush.ids[root]), 8);
        if !r.one_in(16) {
            let to = r.place(book.keys.len() + 1);
            book.keys.insert(to, key(TREES, T_TREE, 0, name.into(), value));
        }
    }
}

/// Puts keys of another btree between the snapshots.
fn scatter(r: &mut Random, keys: &mut Vec<Key>) {
    for _ in 0..r.below(100) {
        let to = r.place(keys.len() + 1);
        keys.insert(to, key(LRU, T_SET, 0, r.edge_64(), Vec::new()));
    }
}

/// Makes up to four entries of the parents table false: another parent, no entry, or one for an id that no snapshot has.
fn make_false(r: &mut Random, bush: &Bush, parents: &mut Vec<(u32, u32)>) {
    for _ in 0..=r.below(4) {
        let place = r.place(parents.len());
        match r.below(6) {
            0 => drop(parents.remove(place)),
            1 => parents.push((bush.absent, r.pick(&bush.ids))),
            2 => parents[place].1 = 0,
            3 => parents[place].1 = bush.absent,
            _ => parents[place].1 = r.pick(&bush.ids),
        }
    }
}
