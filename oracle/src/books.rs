//! Test books for differential runs. A book follows from its mode, a seed and an index alone, so that runs can be split and repeated.

mod bushes;
mod chains;
mod damaged;
mod drawn;
mod fields;
mod forest;
mod many;
mod mixed;
mod parents;
mod random;
mod runs;
mod short;
pub mod values;
mod world;

use crate::layout::{Book, Key};
use crate::published;
use random::Random;
use std::collections::BTreeSet;

#[derive(Clone, Copy, PartialEq, Eq, Debug)]
pub enum Mode {
    Mixed = 0,
    Forest = 1,
    Chains = 2,
    Runs = 3,
    Damaged = 4,
    Short = 5,
    // 6 are the asked ids
    Bushes = 7,
    Many = 8,
    Drawn = 9,
    DrawnForest = 10,
    DrawnChains = 11,
    Parents = 12,
}

/// The numbers from which the asked ids of all modes are drawn, beside those of the modes.
const ASKED: u64 = 6;
/// A run over all modes has at least so many books of a mode with long ones.
const FEWEST: u64 = 10;

impl Mode {
    pub const ALL: [Mode; 12] = [
        Mode::Mixed,
        Mode::Forest,
        Mode::Chains,
        Mode::Runs,
        Mode::Damaged,
        Mode::Short,
        Mode::Drawn,
        Mode::DrawnForest,
        Mode::DrawnChains,
        Mode::Parents,
        Mode::Bushes,
        Mode::Many,
    ];

    pub fn name(self) -> &'static str {
        match self {
            Mode::Mixed => "mixed",
            Mode::Forest => "forest",
            Mode::Chains => "chains",
            Mode::Runs => "runs",
            Mode::Damaged => "damaged",
            Mode::Short => "short",
            Mode::Bushes => "bushes",
            Mode::Many => "many",
            Mode::Drawn => "drawn",
            Mode::DrawnForest => "drawn_forest",
            Mode::DrawnChains => "drawn_chains",
            Mode::Parents => "parents",
        }
    }

    /// How many books of this mode a run of so many over all modes has: a long book takes as long as hundreds of others.
    pub fn share(self, books: u64) -> u64 {
        match self {
            Mode::DrawnChains => FEWEST.max(books / 10),
            Mode::Parents | Mode::Bushes => FEWEST.max(books / 100),
            Mode::Many => FEWEST.max(books / 200),
            _ => books,
        }
    }

    pub fn from_name(name: &str) -> Option<Mode> {
        Mode::ALL.into_iter().find(|mode| mode.name() == name)
    }
}

/// The book of this mode, seed and index: always the same bytes.
pub fn book(mode: Mode, seed: u64, index: u64) -> Vec<u8> {
    let r = &mut Random::new(mode as u64, seed, index);
    match mode {
        Mode::Mixed => mixed::book(r).encode(),
        Mode::Forest => forest::book(r).encode(),
        Mode::Chains => chains::book(r).encode(),
        Mode::Runs => runs::book(r).encode(),
        Mode::Damaged => damaged::book(r),
        Mode::Short => short::book(r, index),
        Mode::Bushes => bushes::book(r).encode(),
        Mode::Many => many::book(r).encode(),
        Mode::Drawn => drawn::book(r),
        Mode::DrawnForest => drawn::forest(r).encode(),
        Mode::DrawnChains => drawn::chain(r).encode(),
        Mode::Parents => parents::book(r),
    }
}

/// Ids worth asking about in a book's two questions (1 to 4): from its parents, its snapshot and subvolume keys, and some that are absent.
pub fn asked(bytes: &[u8], seed: u64, index: u64) -> Vec<u32> {
    let r = &mut Random::new(ASKED, seed, index);
    let mut book = Book::decode(bytes).unwrap_or_default();
    if book.drawn {
        book.parents = published::parents(&book).into_iter().collect();
    }
    (0..=r.below(4)).map(|_| asked_id(r, &book)).collect()
}

fn asked_id(r: &mut Random, book: &Book) -> u32 {
    match r.below(8) {
        0 | 1 => parent_entry(r, book),
        2..=4 => key_id(r, book, |k| k.btree == values::SNAPSHOTS),
        5 => key_id(r, book, |k| k.btree == values::SUBVOLUMES),
        6 => key_id(r, book, |k| k.btree == values::SUBVOLUMES && !is_live(k)),
        _ => r.edge_32(),
    }
}

fn is_live(key: &Key) -> bool {
    values::word(&key.value, 40) == Some(values::SUBVOLUME_STATES[0])
}

/// An id or a parent word of the parents, or a neighbour; of drawn ones often the foot of a chain.
fn parent_entry(r: &mut Random, book: &Book) -> u32 {
    if book.parents.is_empty() {
        return r.below(8) as u32;
    }
    let (id, parent) = match r.below(4) {
        0 => book.parents[0],
        1 => book.parents[book.parents.len() - 1],
        2 if book.drawn => foot(r, &book.parents),
        _ => r.pick(&book.parents),
    };
    match r.below(8) {
        0 => id.wrapping_add(1),
        1 | 2 => parent,
        _ => id,
    }
}

/// An entry whose id is no other's parent, or any entry if there is none.
fn foot(r: &mut Random, parents: &[(u32, u32)]) -> (u32, u32) {
    let above: BTreeSet<u32> = parents.iter().map(|entry| entry.1).collect();
    let feet: Vec<(u32, u32)> = parents.iter().filter(|entry| !above.contains(&entry.0)).copied().collect();
    r.pick(if feet.is_empty() { parents } else { &feet })
}

/// The low half of the offset of a key that meets a condition, else an entry of the parents.
fn key_id(r: &mut Random, book: &Book, wanted: impl Fn(&Key) -> bool) -> u32 {
    let first = if book.keys.is_empty() { 0 } else { r.place(book.keys.len()) };
    let (before, from) = book.keys.split_at(first);
    let found = from.iter().chain(before).find(|k| wanted(k));
    match found {
        Some(key) => key.offset as u32,
        None => parent_entry(r, book),
    }
}
