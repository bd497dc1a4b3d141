//! Forest books: sound ones, and ones with a single damaged word.

use super::random::Random;
use super::values::*;
use crate::layout::{Book, Key};

/// A snapshot of a forest; the others are named by their index.
struct Node {
    id: u32,
    /// Itself first, then its ancestors up to the root.
    chain: Vec<u32>,
    children: Vec<usize>,
    tree: usize,
    /// 0 for none.
    subvolume: u32,
}

impl Node {
    /// 0 for a root.
    fn parent(&self) -> u32 {
        self.chain.get(1).copied().unwrap_or(0)
    }
}

/// One in four undamaged.
pub fn book(r: &mut Random) -> Book {
    let mut book = sound(r);
    if !r.one_in(4) {
        damage(r, &mut book);
    }
    sort_tables(&mut book);
    book
}

/// A forest book without findings.
pub fn sound(r: &mut Random) -> Book {
    let mut book = Book { mark: true, version: r.pick(&VERSIONS), ..Book::default() };
    let trees = 1 + r.pick(&[0, 0, 0, 1, 1, 2]);
    let mut nodes = grow(r, trees);
    let records = distinct(r, trees);
    let masters = settle(r, &mut nodes, trees);
    add_snapshots(r, &nodes, &records, &mut book);
    for (tree, master) in masters.into_iter().enumerate() {
        let value = tree_value(master, nodes[tree].id, r.pick(&[8, 8, 8, 9, 16]));
        book.keys.push(key(TREES, T_TREE, 0, records[tree].into(), value));
    }
    add_subvolumes(r, &nodes, &mut book);
    if r.one_in(2) {
        r.shuffle(&mut book.keys);
    }
    sort_tables(&mut book);
    book
}

/// Nodes of so many trees, the roots first; chains and branches of at most two children.
fn grow(r: &mut Random, trees: usize) -> Vec<Node> {
    let count = trees + r.pick(&[0, 1, 2, 2, 3, 3, 4, 5, 6, 8]);
    let ids = distinct(r, count);
    let branching = r.pick(&[1, 2, 2, 100]);
    let mut nodes: Vec<Node> = Vec::with_capacity(count);
    for (i, id) in ids.into_iter().enumerate() {
        if i < trees {
            nodes.push(Node { id, chain: vec![id], children: Vec::new(), tree: i, subvolume: 0 });
            continue;
        }
        let start = if r.one_in(branching) { r.place(i) } else { i - 1 };
        let parent = (0..i).map(|step| (start + i - step) % i).find(|p| nodes[*p].children.len() < 2).unwrap_or(0);
        let mut chain = vec![id];
        chain.extend(&nodes[parent].chain);
        nodes[parent].children.push(i);
        nodes.push(Node { id, chain, children: Vec::new(), tree: nodes[parent].tree, subvolume: 0 });
    }
    nodes
}

/// Distinct ids that are not 0: rising, falling, from the top down, or scattered.
pub fn distinct(r: &mut Random, count: usize) -> Vec<u32> {
    let count = count as u32;
    match r.below(4) {
        0 => (1..=count).collect(),
        1 => (1..=count).rev().collect(),
        2 => (0..count).map(|i| u32::MAX - i).collect(),
        _ => {
            let (first, step) = (r.next() as u32 | 1, (r.next() as u32 | 1) << 1);
            (0..count).map(|i| first.wrapping_add(i.wrapping_mul(step))).collect()
        }
    }
}

/// Gives subvolumes to nodes, and answers one for each tree.
fn settle(r: &mut Random, nodes: &mut [Node], trees: usize) -> Vec<u32> {
    let mut next = r.pick(&[1, 1, 2, u32::MAX - 20]);
    let mut masters = vec![0; trees];
    for i in (0..nodes.len()).rev() {
        let tree = nodes[i].tree;
        if (i < trees && masters[tree] == 0) || r.one_in(3) {
            nodes[i].subvolume = next;
            masters[tree] = next;
            next += 1;
        }
    }
    masters
}

/// The snapshots of the nodes, with their table.
fn add_snapshots(r: &mut Random, nodes: &[Node], records: &[u32], book: &mut Book) {
    for node in nodes {
        book.parents.push((node.id, node.parent()));
        book.keys.push(snapshot_key(r, node, nodes, records, book.version));
    }
}

fn snapshot_key(r: &mut Random, node: &Node, nodes: &[Node], records: &[u32], version: u16) -> Key {
    let mut skip = [0; 3];
    for word in &mut skip {
        *word = if r.one_in(3) { 0 } else { r.pick(&node.chain) };
    }
    let words = Snapshot {
        flags: if node.subvolume != 0 { 2 } else { 0 } | r.pick(&[0, 0, 0, 1, 4]),
        parent: node.parent(),
        children: child_words(r, node, nodes),
        subvolume: node.subvolume,
        tree: records[node.tree],
        depth: node.chain.len() as u32 - 1,
        skip,
        state: snapshot_state(r, node),
        pad: 0,
    };
    let length = if version < 1063 { r.pick(&[40, 41, 44, 56, 60, 64, 64, 72]) } else { r.pick(&[60, 63, 64, 64, 64, 72]) };
    key(SNAPSHOTS, T_SNAPSHOT, 0, node.id.into(), words.value(length))
}

/// The true children in either order; now and then one is left out or named twice.
fn child_words(r: &mut Random, node: &Node, nodes: &[Node]) -> [u32; 2] {
    let id = |place: usize| node.children.get(place).map_or(0, |i| nodes[*i].id);
    match r.below(12) {
        0 => [id(0), 0],
        1 => [id(0), id(0)],
        2 => [0, id(1)],
        3..=6 => [id(1), id(0)],
        _ => [id(0), id(1)],
    }
}

/// Live where there is a subvolume; else now and then a state of which no rule complains here.
fn snapshot_state(r: &mut Random, node: &Node) -> u32 {
    let [live, will_delete, no_keys, deleted] = SNAPSHOT_STATES;
    match r.below(8) {
        _ if node.subvolume != 0 => live,
        0 if node.children.is_empty() => will_delete,
        1 => no_keys,
        2 => deleted,
        _ => live,
    }
}

/// The subvolumes of the nodes with their table, and the entries of those that have a parent.
fn add_subvolumes(r: &mut Random, nodes: &[Node], book: &mut Book) {
    let mut above = 0;
    for node in nodes.iter().filter(|n| n.subvolume != 0) {
        let id = node.subvolume;
        let parent = if r.one_in(2) { above } else { 0 };
        let state = if id != 1 && r.one_in(8) { SUBVOLUME_STATES[1] } else { SUBVOLUME_STATES[0] };
        let words = Subvolume { flags: 0, snapshot: node.id, creation_parent: above, parent, state, pad: 0 };
        book.keys.push(key(SUBVOLUMES, T_SUBVOLUME, 0, id.into(), words.value(r.pick(&[44, 48, 48, 56]))));
        if parent != 0 {
            book.keys.push(key(CHILDREN, T_SET, parent.into(), id.into(), Vec::new()));
        }
        book.subvolumes.push((id, node.id));
        above = id;
    }
}

/// Damages one word of one key or of one entry of a table.
fn damage(r: &mut Random, book: &mut Book) {
    match r.below(12) {
        0 => {
            let place = r.place(book.parents.len());
            book.parents[place] = damaged_entry(r, book, book.parents[place]);
        }
        1 if !book.subvolumes.is_empty() => {
            let place = r.place(book.subvolumes.len());
            book.subvolumes[place] = damaged_entry(r, book, book.subvolumes[place]);
        }
        2 | 3 => damage_head(r, book),
        _ => damage_value(r, book),
    }
}

fn damaged_entry(r: &mut Random, book: &Book, (id, named): (u32, u32)) -> (u32, u32) {
    match r.one_in(2) {
        true => (other_word(r, book, id), named),
        false => (id, other_word(r, book, named)),
    }
}

fn damage_value(r: &mut Random, book: &mut Book) {
    let place = damaged_key(r, book);
    let at = damaged_word(r, &book.keys[place]);
    match word(&book.keys[place].value, at) {
        Some(old) => {
            let new = other_word(r, book, old);
            set_word(r, book, place, at, new);
        }
        None => damage_head(r, book),
    }
}

/// Snapshots and trees in most cases.
fn damaged_key(r: &mut Random, book: &Book) -> usize {
    let place = r.place(book.keys.len());
    let wanted = r.pick(&[SNAPSHOTS, SNAPSHOTS, SNAPSHOTS, TREES, book.keys[place].btree]);
    let of_btree = |p: &usize| book.keys[*p].btree == wanted;
    (place..book.keys.len()).chain(0..place).find(of_btree).unwrap_or(place)
}

/// The byte of a word that a rule reads, or of any word.
fn damaged_word(r: &mut Random, key: &Key) -> usize {
    match key.btree {
        _ if r.one_in(12) => 4 * r.place(key.value.len() / 4 + 1),
        SNAPSHOTS => r.pick(&[0, 4, 4, 8, 12, 16, 20, 20, 24, 24, 28, 32, 36, 56, 60]),
        SUBVOLUMES => r.pick(&[4, 20, 40, 44]),
        _ => r.pick(&[0, 4]),
    }
}

/// Sets a word of a value; the parents table follows a parent word in three of four.
fn set_word(r: &mut Random, book: &mut Book, place: usize, at: usize, new: u32) {
    let key = &mut book.keys[place];
    put(&mut key.value, at, &new.to_le_bytes());
    if key.btree == SNAPSHOTS && at == PARENT_WORD && !r.one_in(4) {
        let id = key.offset as u32;
        if let Some(entry) = book.parents.iter_mut().find(|e| e.0 == id) {
            entry.1 = new;
        }
    }
}

/// Another word: an id of the book, none, a neighbour, a flipped bit, or any.
fn other_word(r: &mut Random, book: &Book, old: u32) -> u32 {
    let new = match r.below(10) {
        0 => 0,
        1 => old.wrapping_add(1),
        2 => old.wrapping_sub(1),
        3 => old ^ 1 << r.below(32),
        4 => r.edge_32(),
        5 => book.keys[r.place(book.keys.len())].offset as u32,
        _ => r.pick(&book.parents).0,
    };
    if new == old {
        old ^ 1 << r.below(32)
    } else {
        new
    }
}

/// Damages a field of a key's head, or the length of its value.
fn damage_head(r: &mut Random, book: &mut Book) {
    let place = damaged_key(r, book);
    let new = other_word(r, book, book.keys[place].offset as u32);
    let key = &mut book.keys[place];
    match r.below(8) {
        0 => key.size = r.edge_32(),
        1 => key.inode = r.edge_64(),
        2 => key.snapshot = r.edge_32(),
        3 => key.key_type = r.pick(&[0, 1, 21, 22, 25, 31]),
        4 => key.btree = r.pick(&[8, 9, 10, 15, 19]),
        5 => key.value.resize(r.pick(&[0, 4, 7, 8, 20, 23, 24, 39, 40, 44, 59, 60, 64]), 0),
        6 => key.offset = r.edge_64(),
        _ => move_id(r, book, place, new),
    }
}

/// Gives a key another id; the parents table follows in half the cases.
fn move_id(r: &mut Random, book: &mut Book, place: usize, new: u32) {
    let key = &mut book.keys[place];
    let old = std::mem::replace(&mut key.offset, new.into()) as u32;
    if key.btree == SNAPSHOTS && r.one_in(2) {
        if let Some(entry) = book.parents.iter_mut().find(|e| e.0 == old) {
            entry.0 = new;
        }
    }
}
