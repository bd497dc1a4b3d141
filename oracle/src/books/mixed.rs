//! Mixed books: single keys of all kinds, groups of linked keys, free runs and generations, over small pools of ids.

use super::fields::{self, FIELD_MAKERS, LINK_MAKERS};
use super::random::Random;
use super::values::*;
use super::world::World;
use super::{drawn, forest, runs};
use crate::layout::{Book, Key};

type Group = fn(&mut World, &mut Vec<Key>);

const GROUPS: [Group; 6] = [deleted_subvolume, will_delete, emptied, claimed, parented, rooted];

pub fn book(r: &mut Random) -> Book {
    let theme = r.below(4);
    let mut book = if theme == 0 { forest::sound(r) } else { Book { mark: !r.one_in(4), ..Book::default() } };
    book.version = r.pick(&VERSIONS);
    book.device = r.pick(&[0, 0, 0, 1, 1 << 32, u64::MAX]);
    let w = &mut World::new(r, book.device);
    let mut keys = std::mem::take(&mut book.keys);
    if theme >= 2 {
        add_links(w, &mut keys);
    }
    if theme != 3 {
        add_fields(w, &mut keys);
    }
    double(w, &mut keys);
    keys.retain(|k| book.mark || k.btree != TREES);
    book.keys = keys;
    if theme != 0 {
        tables(w, &mut book);
    }
    space(r, &mut book);
    if r.one_in(2) {
        r.shuffle(&mut book.keys);
    }
    sort_tables(&mut book);
    if r.one_in(16) {
        drawn::draw(&mut book);
    }
    book
}

/// Groups of linked keys, and single ones.
pub fn add_links(w: &mut World, keys: &mut Vec<Key>) {
    for _ in 0..w.r.below(3) {
        w.r.pick(&GROUPS)(w, keys);
    }
    let singles = w.r.place(5);
    keys.extend((0..singles).map(|_| w.r.pick(&LINK_MAKERS)(w)));
}

/// Keys that only the rules on single keys judge.
pub fn add_fields(w: &mut World, keys: &mut Vec<Key>) {
    let singles = w.r.place(6);
    keys.extend((0..singles).map(|_| w.r.pick(&FIELD_MAKERS)(w)));
}

/// Puts a key twice, in one of four also with another word, so that the later one replaces the earlier.
fn double(w: &mut World, keys: &mut Vec<Key>) {
    if keys.is_empty() || !w.r.one_in(8) {
        return;
    }
    let mut twin = keys[w.r.place(keys.len())].clone();
    let words = twin.value.len() / 4;
    if words > 0 && !w.r.one_in(4) {
        let at = 4 * w.r.place(words);
        put(&mut twin.value, at, &w.id_or_none(3).to_le_bytes());
    }
    keys.insert(w.r.place(keys.len() + 1), twin);
}

/// Half the books have no buckets to judge, the others runs and generations.
fn space(r: &mut Random, book: &mut Book) {
    if r.one_in(2) {
        book.first_bucket = r.pick(&[0, 1, 0xffff]);
        book.buckets = r.below(u64::from(book.first_bucket) + 1);
    } else {
        runs::add(r, book);
    }
}

/// The tables as the keys give them, in one of three with one entry more, less or changed.
pub fn tables(w: &mut World, book: &mut Book) {
    let words = |btree: u8, at: usize| {
        let of_btree = book.keys.iter().filter(move |k| k.btree == btree);
        of_btree.filter_map(move |k| Some((k.offset as u32, word(&k.value, at)?))).collect::<Vec<_>>()
    };
    (book.parents, book.subvolumes) = (words(SNAPSHOTS, PARENT_WORD), words(SUBVOLUMES, 4));
    perturb(w, &mut book.parents);
    perturb(w, &mut book.subvolumes);
}

fn perturb(w: &mut World, table: &mut Vec<(u32, u32)>) {
    match w.r.below(9) {
        0 => table.push((w.id(), w.id_or_none(3))),
        1 if !table.is_empty() => {
            table.remove(w.r.place(table.len()));
        }
        2 if !table.is_empty() => {
            let place = w.r.place(table.len());
            table[place].1 = w.id_or_none(3);
        }
        _ => {}
    }
}

/// Kinds 29, 30, 31: a subvolume that is not live, with a live snapshot and a tree that name it.
fn deleted_subvolume(w: &mut World, keys: &mut Vec<Key>) {
    let id = w.id();
    let state = SUBVOLUME_STATES[1 + w.r.place(2)];
    let words = Subvolume { snapshot: w.id(), parent: w.id_or_none(2), state, ..Subvolume::default() };
    keys.push(w.key(SUBVOLUMES, T_SUBVOLUME, 0, id.into(), words.value(48)));
    let words = Snapshot { flags: 2, subvolume: id, tree: w.id(), state: w.state(&SNAPSHOT_STATES), ..Snapshot::default() };
    let (snapshot, tree, root) = (w.id(), w.id(), w.id());
    let length = w.length(64, &[56, 60]);
    keys.push(w.key(SNAPSHOTS, T_SNAPSHOT, 0, snapshot.into(), words.value(length)));
    let length = w.length(8, &[4, 8]);
    keys.push(w.key(TREES, T_TREE, 0, tree.into(), tree_value(id, root, length)));
}

/// Kinds 33, 34: a snapshot to be deleted, with a subvolume and two children that may be live.
fn will_delete(w: &mut World, keys: &mut Vec<Key>) {
    let subvolume = w.id_or_none(2);
    let [id, first, second] = [w.id(), w.id(), w.id()];
    let children = if w.r.one_in(6) { [first, 0] } else { [first, second] };
    let words = Snapshot { flags: w.flags(subvolume), children, subvolume, tree: 1, state: SNAPSHOT_STATES[1], ..Snapshot::default() };
    keys.push(w.key(SNAPSHOTS, T_SNAPSHOT, 0, id.into(), words.value(64)));
    for child in [first, second] {
        let words = Snapshot { parent: id, tree: 1, depth: 1, state: w.state(&SNAPSHOT_STATES), ..Snapshot::default() };
        keys.push(w.key(SNAPSHOTS, T_SNAPSHOT, 0, child.into(), words.value(64)));
    }
    if subvolume != 0 && !w.r.one_in(4) {
        let words = Subvolume { snapshot: id, state: w.state(&SUBVOLUME_STATES), ..Subvolume::default() };
        let length = w.length(48, &[40, 44]);
        keys.push(w.key(SUBVOLUMES, T_SUBVOLUME, 0, subvolume.into(), words.value(length)));
    }
}

/// Kind 35: a snapshot without keys, or deleted, and keys accounted to it or to another.
fn emptied(w: &mut World, keys: &mut Vec<Key>) {
    let id = w.id();
    let words = Snapshot { tree: w.id(), state: SNAPSHOT_STATES[2 + w.r.place(2)], ..Snapshot::default() };
    keys.push(w.key(SNAPSHOTS, T_SNAPSHOT, 0, id.into(), words.value(64)));
    let order = if w.r.one_in(6) { id.to_be_bytes() } else { id.to_le_bytes() };
    let inode = 5 << 56 | u64::from(u32::from_be_bytes(order)) << 24 | w.r.below(29) << 16 | w.r.below(2);
    let length = w.length(24, &[8, 8, 16]);
    let mut value = vec![0; length];
    put(&mut value, w.r.place(9), &[1]);
    keys.push(w.key(ACCOUNTING, T_ACCOUNTING, inode, 0, value));
}

/// Kind 32: subvolumes that claim one snapshot, also snapshot 0, also with states near deleted.
fn claimed(w: &mut World, keys: &mut Vec<Key>) {
    let snapshot = w.id_or_none(4);
    for _ in 0..2 + w.r.below(2) {
        let deleted = SUBVOLUME_STATES[2];
        let state = if w.edge() { w.flipped(deleted) } else { w.state(&SUBVOLUME_STATES) };
        let id = w.id();
        let length = w.length(48, &[4, 8, 40, 44]);
        let words = Subvolume { snapshot, state, ..Subvolume::default() };
        keys.push(w.key(SUBVOLUMES, T_SUBVOLUME, 0, id.into(), words.value(length)));
    }
}

/// Kinds 37, 38: a subvolume with a parent, its entry, and at times a wrong one.
fn parented(w: &mut World, keys: &mut Vec<Key>) {
    let (id, parent) = (w.id(), w.id());
    let words = Subvolume { snapshot: w.id(), creation_parent: w.id(), parent, state: w.state(&SUBVOLUME_STATES), ..Subvolume::default() };
    let length = w.length(48, &[20, 24, 40, 44]);
    keys.push(w.key(SUBVOLUMES, T_SUBVOLUME, 0, id.into(), words.value(length)));
    if !w.r.one_in(4) {
        keys.push(w.key(CHILDREN, T_SET, parent.into(), id.into(), Vec::new()));
    }
    if w.r.one_in(4) {
        keys.push(fields::child(w));
    }
}

/// Kinds 31, 39 to 45: a tree, its root with a subvolume, and a child below.
fn rooted(w: &mut World, keys: &mut Vec<Key>) {
    let [id, root, child, subvolume] = w.ids;
    let tree = if w.edge() { w.id() } else { id };
    keys.push(w.key(TREES, T_TREE, 0, id.into(), tree_value(subvolume, root, 8)));
    let children = [child, w.id_or_none(1 + u64::from(w.edges == 0))];
    let state = SNAPSHOT_STATES[0];
    let words = Snapshot { flags: 2, children, subvolume, tree, state, ..Snapshot::default() };
    keys.push(w.key(SNAPSHOTS, T_SNAPSHOT, 0, root.into(), words.value(64)));
    let skip = [root, w.id_or_none(2), 0];
    let words = Snapshot { parent: root, tree: id, depth: 1 + u32::from(w.edge()), skip, state, ..Snapshot::default() };
    keys.push(w.key(SNAPSHOTS, T_SNAPSHOT, 0, child.into(), words.value(64)));
    let snapshot = if w.edge() { w.id() } else { root };
    let words = Subvolume { snapshot, state: SUBVOLUME_STATES[0], ..Subvolume::default() };
    keys.push(w.key(SUBVOLUMES, T_SUBVOLUME, 0, subvolume.into(), words.value(48)));
}
