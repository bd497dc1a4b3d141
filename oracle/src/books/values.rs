//! Btrees, key types, state words and the values of the snapshot keys.

use crate::layout::{Book, Key};

pub const EXTENTS: u8 = 0;
pub const INODES: u8 = 1;
pub const DIRENTS: u8 = 2;
pub const XATTRS: u8 = 3;
pub const ALLOC: u8 = 4;
pub const REFLINK: u8 = 7;
pub const SUBVOLUMES: u8 = 8;
pub const SNAPSHOTS: u8 = 9;
pub const LRU: u8 = 10;
pub const FREESPACE: u8 = 11;
pub const NEED_DISCARD: u8 = 12;
pub const BACKPOINTERS: u8 = 13;
pub const BUCKET_GENS: u8 = 14;
pub const TREES: u8 = 15;
pub const LOGGED_OPS: u8 = 17;
pub const RECONCILE_WORK: u8 = 18;
pub const CHILDREN: u8 = 19;
pub const ACCOUNTING: u8 = 20;
pub const DAMAGE: u8 = 28;

pub const T_EXTENT: u8 = 6;
pub const T_XATTR: u8 = 11;
pub const T_REFLINK_P: u8 = 15;
pub const T_REFLINK_V: u8 = 16;
pub const T_SUBVOLUME: u8 = 21;
pub const T_SNAPSHOT: u8 = 22;
pub const T_SET: u8 = 25;
pub const T_ALLOC: u8 = 27;
pub const T_BACKPOINTER: u8 = 28;
pub const T_INODE: u8 = 29;
pub const T_BUCKET_GENS: u8 = 30;
pub const T_TREE: u8 = 31;
pub const T_ACCOUNTING: u8 = 34;
pub const T_CURSOR: u8 = 35;

/// Pairs of btree and type to which the rules on a key's fields give kind 22 too.
pub const OLD_FOREIGN: [(u8, u8); 5] = [(2, 11), (13, 22), (13, 29), (19, 32), (19, 33)];

/// Live, unlinked, deleted.
pub const SUBVOLUME_STATES: [u32; 3] = [0x4ad5_447e, 0x2d35_8e8f, 0x3c6b_2d4c];
/// Live, will delete, no keys, deleted.
pub const SNAPSHOT_STATES: [u32; 4] = [0x757c_47a2, 0x3316_a8d2, 0x372b_5a01, 0x7cd4_a225];
/// Versions on both sides of 1.39, with minor and major numbers that are larger and smaller alone.
pub const VERSIONS: [u16; 10] = [0, 39, 1023, 1024, 1062, 1063, 1064, 2048, 0x7fff, 0xffff];

/// Where the parent word stands in a snapshot value.
pub const PARENT_WORD: usize = 4;

/// The words of a snapshot value.
#[derive(Clone, Default)]
pub struct Snapshot {
    pub flags: u32,
    pub parent: u32,
    pub children: [u32; 2],
    pub subvolume: u32,
    pub tree: u32,
    pub depth: u32,
    pub skip: [u32; 3],
    pub state: u32,
    pub pad: u32,
}

impl Snapshot {
    /// The value, cut or filled with zeros to so many bytes.
    pub fn value(&self, length: usize) -> Vec<u8> {
        let [first, second] = self.children;
        let [s, t, u] = self.skip;
        let words = [self.flags, self.parent, first, second, self.subvolume, self.tree, self.depth, s, t, u, 0, 0, 0, 0, self.state, self.pad];
        words_value(&words, length)
    }
}

/// The words of a subvolume value.
#[derive(Clone, Default)]
pub struct Subvolume {
    pub flags: u32,
    pub snapshot: u32,
    pub creation_parent: u32,
    pub parent: u32,
    pub state: u32,
    pub pad: u32,
}

impl Subvolume {
    pub fn value(&self, length: usize) -> Vec<u8> {
        let words = [self.flags, self.snapshot, 0, 0, self.creation_parent, self.parent, 0, 0, 0, 0, self.state, self.pad];
        words_value(&words, length)
    }
}

pub fn tree_value(subvolume: u32, root: u32, length: usize) -> Vec<u8> {
    words_value(&[subvolume, root], length)
}

fn words_value(words: &[u32], length: usize) -> Vec<u8> {
    let mut value = Vec::with_capacity(length.max(4 * words.len()));
    for word in words {
        value.extend(word.to_le_bytes());
    }
    value.resize(length, 0);
    value
}

/// A key of size 0 and snapshot 0.
pub fn key(btree: u8, key_type: u8, inode: u64, offset: u64, value: Vec<u8>) -> Key {
    Key { btree, key_type, size: 0, inode, offset, snapshot: 0, value }
}

/// The little-endian word at a byte of a value, if it is there.
pub fn word(value: &[u8], at: usize) -> Option<u32> {
    value.get(at..at + 4).map(|w| u32::from_le_bytes([w[0], w[1], w[2], w[3]]))
}

/// Writes as many of the bytes as the value has room for.
pub fn put(value: &mut [u8], at: usize, bytes: &[u8]) {
    for (to, from) in value.iter_mut().skip(at).zip(bytes) {
        *to = *from;
    }
}

/// Brings entries into a table's order; of equal first fields the last stays.
pub fn sorted<K: Ord + Copy, V: Copy>(entries: &mut Vec<(K, V)>) {
    entries.reverse();
    entries.sort_by_key(|e| e.0);
    entries.dedup_by_key(|e| e.0);
}

/// Brings all four tables of a book into order.
pub fn sort_tables(book: &mut Book) {
    sorted(&mut book.parents);
    sorted(&mut book.subvolumes);
    sorted(&mut book.gens);
    sorted(&mut book.alloc);
}
