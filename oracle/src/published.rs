//! The published rules over a book: called in document 01's order over maps made from the book, their detail texts read back into numbers.
use crate::books::values::{word, FREESPACE, PARENT_WORD, SNAPSHOTS, TREES, T_SNAPSHOT, T_TREE};
use crate::layout::{Book, Key};
use crate::texts;
use reference::bkey::{Bkey, Bpos};
use reference::check::{Problem, Report};
use reference::superblock::{Member, Version};
use reference::{Published, Rules, Trees};
use std::collections::{BTreeMap, BTreeSet};

#[derive(Clone, Copy, Debug, PartialEq, Eq)]
pub struct Finding {
    pub kind: u8,
    pub subject: u64,
    pub object: u64,
}

/// Parents by id.
pub type Parents = BTreeMap<u32, u32>;

/// The parents that all rules and the ancestor question go by: those of the table, or of a drawn book those of its keys.
pub fn parents(book: &Book) -> Parents {
    match book.drawn {
        true => drawn(&book.keys),
        false => book.parents.iter().copied().collect(),
    }
}

/// Document 02's ticket 2: the parent words of btree 9 keys of type 22 with 8 value bytes or more, by the offset's low 32 bits, the later key winning.
fn drawn(keys: &[Key]) -> Parents {
    let mut parents = Parents::new();
    for key in keys.iter().filter(|k| k.btree == SNAPSHOTS && k.key_type == T_SNAPSHOT) {
        // a shorter value has no such word
        if let Some(parent) = word(&key.value, PARENT_WORD) {
            parents.insert(key.offset as u32, parent);
        }
    }
    parents
}

/// The bits of an offset in btree 11 that number a bucket; the age of the bucket is above them.
pub const BUCKET_BITS: u32 = 56;

/// Document 02's ticket 5: the keys of btree 11 as `free_space` is fed them, the top byte of their offsets cleared.
pub fn runs(book: &Book) -> Vec<Bkey> {
    runs_by(book, |_, key| key.offset % (1 << BUCKET_BITS))
}

/// The same with another reading of their offsets.
pub fn runs_by(book: &Book, read: impl Fn(&Book, &Key) -> u64) -> Vec<Bkey> {
    let keys = book.keys.iter().filter(|key| key.btree == FREESPACE);
    keys.map(|key| bkey(Key { offset: read(book, key), ..key.clone() })).collect()
}

fn bkey(k: Key) -> Bkey {
    let pos = Bpos { inode: k.inode, offset: k.offset, snapshot: k.snapshot };
    Bkey { key_type: k.key_type, size: k.size, version_hi: 0, version_lo: 0, pos, value: k.value }
}

/// Drops the problem of kind 22 that the fields of a key gave, where the ticket's own is at an index.
pub fn once(problems: &mut Vec<Problem>, _: usize, at: usize) {
    let is_second = |i: &usize| problems[*i].kind == problems[at].kind;
    if let Some(second) = (at + 1..problems.len()).find(is_second) {
        problems.remove(second);
    }
}

/// A book as the published rules take it.
pub struct Maps {
    version: Version,
    device: u64,
    member: Member,
    parents: Parents,
    subvolumes: BTreeMap<u32, (u64, u32)>,
    gens: BTreeMap<u64, u8>,
    alloc: BTreeMap<u64, Option<u8>>,
    /// Every key with its btree, in the order of the book.
    keys: Vec<(u8, Bkey)>,
    /// The keys of each btree, in the order of the book. The snapshot_trees btree is there exactly if the book's mark is set.
    trees: Trees,
    /// What `free_space` is fed.
    runs: Vec<Bkey>,
}

/// What the rules said: their problems, how many there were after each key, and the unavailable subvolumes.
pub struct Said {
    report: Report,
    after: Vec<usize>,
    pub unavailable: BTreeSet<u32>,
}

impl Maps {
    pub fn of(book: &Book) -> Maps {
        Maps::over(book, parents(book), runs(book))
    }

    /// The same with parents and with runs that are given.
    pub fn over(book: &Book, parents: Parents, runs: Vec<Bkey>) -> Maps {
        let keys: Vec<(u8, Bkey)> = book.keys.iter().map(|k| (k.btree, bkey(k.clone()))).collect();
        let mut trees = Trees::new();
        if book.mark {
            trees.insert(TREES, Vec::new());
        }
        for (btree, key) in &keys {
            trees.entry(*btree).or_default().push(key.clone());
        }
        Maps {
            version: Version(book.version),
            device: book.device,
            member: Member { uuid: [0; 16], nbuckets: book.buckets, first_bucket: book.first_bucket, bucket_size: 0, last_mount: 0 },
            parents,
            // the root inode of a subvolume is in no book, and no rule reads it
            subvolumes: book.subvolumes.iter().map(|&(id, snapshot)| (id, (0, snapshot))).collect(),
            gens: book.gens.iter().copied().collect(),
            alloc: book.alloc.iter().copied().collect(),
            keys,
            trees,
            runs,
        }
    }

    /// The rules in document 01's order, with the two spots of document 02's ticket 4, and `free_space` over the runs of
    /// its ticket 5. This is what is timed as the Rust rules' own time.
    pub fn judge(&self) -> Said {
        self.judge_by(Published::is_foreign, once)
    }

    /// The same with another reading of ticket 4: whether a type is foreign to a btree, and what becomes of a key's
    /// problems after its fields if it is. They start at the first index, and the ticket's own is at the second.
    pub fn judge_by<F, S>(&self, is_foreign: F, settle: S) -> Said
    where
        F: Fn(u8, u8) -> bool,
        S: Fn(&mut Vec<Problem>, usize, usize),
    {
        let mut r = Report::default();
        let mut after = Vec::with_capacity(self.keys.len());
        for (btree, key) in &self.keys {
            let first = r.problems.len();
            Published::check_key_device(*btree, key, self.device, &mut r);
            let foreign = is_foreign(*btree, key.key_type).then_some(r.problems.len());
            if foreign.is_some() {
                Published::add_foreign_type(*btree, key, &mut r);
            }
            Published::check_key_fields(*btree, key, &mut r);
            if let Some(at) = foreign {
                settle(&mut r.problems, first, at);
            }
            Published::check_state_words(self.version, *btree, key, &mut r);
            after.push(r.problems.len());
        }
        let unavailable = Published::subvolume_states(&self.trees, &mut r);
        Published::snapshot_claims(&self.trees, &mut r);
        Published::snapshot_states(&self.trees, &mut r);
        Published::snapshot_subvol_flags(&self.trees, &mut r);
        Published::subvolume_children(&self.trees, &mut r);
        Published::snapshot_links(&self.trees, &self.parents, &self.subvolumes, &mut r);
        Published::bucket_gens_against_alloc(&self.trees, &self.gens, self.device, &mut r);
        Published::free_space(&self.runs, &self.alloc, self.device, &self.member, &mut r);
        Said { report: r, after, unavailable }
    }

    /// The root above an id and the number of links to it, or none. The published program computes them inside `snapshot_links` alone: so a
    /// snapshot of this id is judged whose depth is wrong for every chain, and which names a tree whose root is 0; the texts of kinds 42 and 41
    /// then tell both.
    pub fn ancestor(&self, id: u32) -> Option<(u32, u32)> {
        let key =
            |key_type, offset, value| Bkey { key_type, size: 0, version_hi: 0, version_lo: 0, pos: Bpos { inode: 0, offset, snapshot: 0 }, value };
        let mut snapshot = vec![0; 40];
        snapshot[20..24].copy_from_slice(&1u32.to_le_bytes());
        snapshot[24..28].copy_from_slice(&u32::MAX.to_le_bytes());
        let trees = Trees::from([(SNAPSHOTS, vec![key(T_SNAPSHOT, u64::from(id), snapshot)]), (TREES, vec![key(T_TREE, 1, vec![0; 8])])]);
        let mut r = Report::default();
        Published::snapshot_links(&trees, &self.parents, &self.subvolumes, &mut r);
        let text = |kind| r.problems.iter().find(|p| p.kind == kind).map(|p| p.detail.as_str());
        let links = texts::number_after(text("snapshot_bad_depth")?, "but it has ");
        let root = text("snapshot_to_bad_snapshot_tree").map_or(0, |t| texts::number_after(t, "but its own root is "));
        Some((root as u32, links as u32))
    }
}

impl Said {
    /// The findings in numbers. A text that no template matches stops the program.
    pub fn findings(&self) -> Vec<Finding> {
        let key_of = |at: usize| self.after.partition_point(|&end| end <= at);
        let problems = self.report.problems.iter().enumerate();
        problems
            .map(|(at, p)| {
                let mut found = texts::read(p.kind, &p.detail);
                if found.kind <= texts::LAST_KEY_KIND {
                    (found.subject, found.object) = (key_of(at) as u64, 0);
                }
                found
            })
            .collect()
    }

    /// How many findings there are.
    pub fn count(&self) -> usize {
        self.report.problems.len()
    }
}
