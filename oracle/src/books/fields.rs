//! Single keys of every kind that a rule judges, near the edges of the rules (kinds 1 to 28).

use super::random::Random;
use super::values::*;
use super::world::World;
use crate::layout::{Key, LONGEST_VALUE};
use reference::{Published, Rules};

pub type Maker = fn(&mut World) -> Key;

/// Keys that only the rules on single keys judge.
pub const FIELD_MAKERS: [Maker; 12] = [accounting, accounting, inode, alloc, backpointer, reflink_v, reflink_p, xattr, cursor, set, misplaced, other];
/// Keys that link to one another.
pub const LINK_MAKERS: [Maker; 6] = [snapshot, snapshot, subvolume, subvolume, tree, child];

/// Pairs of btree and type that rules name, and pairs beside them.
const PAIRS: [(u8, u8); 36] = [
    (0, 15),
    (1, 29),
    (2, 10),
    (3, 11),
    (4, 27),
    (7, 16),
    (8, 21),
    (9, 22),
    (10, 25),
    (11, 25),
    (12, 25),
    (13, 28),
    (14, 30),
    (17, 35),
    (18, 25),
    (19, 25),
    (20, 34),
    (1, 23),
    (2, 11),
    (4, 20),
    (5, 13),
    (8, 22),
    (9, 21),
    (13, 27),
    (14, 25),
    (16, 25),
    (19, 34),
    (20, 25),
    (24, 25),
    (23, 28),
    (4, 0),
    (4, 1),
    (13, 0),
    (13, 1),
    (14, 0),
    (14, 1),
];

/// Types around the last that is named, and where a byte has another bit or a word of 64 bits ends.
const EDGE_TYPES: [u8; 8] = [39, 40, 41, 63, 64, 65, 128, 255];
/// Btrees for which the published table has no row.
const UNLISTED: [u8; 8] = [29, 30, 31, 32, 63, 64, 128, 255];

/// Kinds 3, 4, 5, 11, 15, 23, 24, 30, 33 to 36, 41 to 45.
pub fn snapshot(w: &mut World) -> Key {
    let subvolume = w.id_or_none(3);
    let words = Snapshot {
        flags: w.flags(subvolume),
        parent: w.id_or_none(3),
        children: [w.id_or_none(2), w.id_or_none(2)],
        subvolume,
        tree: w.id(),
        depth: w.r.below(4) as u32,
        skip: [w.id_or_none(2), w.id_or_none(2), w.id_or_none(2)],
        state: w.state(&SNAPSHOT_STATES),
        pad: w.pad(),
    };
    let length = w.length(64, &[4, 8, 20, 24, 40, 60, 64]);
    let id = w.id();
    w.key(SNAPSHOTS, T_SNAPSHOT, 0, id.into(), words.value(length))
}

/// Kinds 3, 4, 5, 14, 25 to 29, 32, 33, 37.
pub fn subvolume(w: &mut World) -> Key {
    let words = Subvolume {
        flags: w.r.below(4) as u32,
        snapshot: w.id_or_none(12),
        creation_parent: w.id_or_none(2),
        parent: w.id_or_none(2),
        state: w.state(&SUBVOLUME_STATES),
        pad: w.pad(),
    };
    let length = w.length(48, &[8, 16, 24, 40, 44, 48]);
    let id = w.id();
    w.key(SUBVOLUMES, T_SUBVOLUME, 0, id.into(), words.value(length))
}

/// Kinds 3, 4, 19, 31, 39 to 41.
pub fn tree(w: &mut World) -> Key {
    let (subvolume, root) = (w.id_or_none(8), w.id());
    let length = w.length(8, &[4, 8]);
    let id = w.id();
    w.key(TREES, T_TREE, 0, id.into(), tree_value(subvolume, root, length))
}

/// Kinds 3, 4, 37, 38: an entry at parent and child.
pub fn child(w: &mut World) -> Key {
    let (parent, child) = (w.id(), w.id());
    w.key(CHILDREN, T_SET, parent.into(), child.into(), Vec::new())
}

/// Kinds 9, 10, 13: the third word with the hash type at bits 20 to 23 and half the start of the fields at bits 32 to 35.
fn inode(w: &mut World) -> Key {
    let start = if w.edge() { w.r.below(16) } else { 3 };
    let hash = if w.edge() { w.r.below(16) } else { w.r.below(4) };
    let others = if w.r.one_in(2) { w.r.next() & !(0xf << 20 | 0xf << 32) } else { 0 };
    let needed = 16 * start as usize;
    let length = w.length(needed.max(48), &[48, needed, needed + 8]);
    let mut value = vec![0; length];
    put(&mut value, 16, &(others | hash << 20 | start << 32).to_le_bytes());
    let number = w.r.edge_64();
    w.key(INODES, T_INODE, 0, number, value)
}

/// Kinds 1, 3, 12: flags at byte 8 with the start at bits 2 to 7 and the backpointers at bits 8 to 13.
fn alloc(w: &mut World) -> Key {
    let start = if w.edge() { w.r.below(64) as u32 } else { w.r.pick(&[0, 0, 6, 7]) };
    let backpointers = if w.edge() { w.r.below(64) as u32 } else { w.r.pick(&[0, 0, 0, 1, 2]) };
    let others = if w.r.one_in(4) { w.r.next() as u32 & !0x3ffc } else { 0 };
    let needed = 8 * (if start == 0 { 6 } else { start } + 4 * backpointers) as usize;
    let length = w.length(needed.clamp(48, LONGEST_VALUE), &[12, 48, needed, needed]);
    let mut value = vec![0; length];
    put(&mut value, 8, &(others | start << 2 | backpointers << 8).to_le_bytes());
    let bucket = w.r.below(20);
    w.key(ALLOC, T_ALLOC, w.device, bucket, value)
}

/// Kinds 2 to 5, 20: the level is byte 1.
fn backpointer(w: &mut World) -> Key {
    let length = w.length(32, &[1, 2, 32, 32]);
    let level = if w.edge() { w.r.pick(&[3, 4, 5, 6, 255]) } else { w.r.below(5) as u8 };
    let mut value = vec![0; length];
    put(&mut value, 0, &[w.r.next() as u8, level, 9, 9]);
    let offset = w.r.edge_64();
    w.key(BACKPOINTERS, T_BACKPOINTER, w.device, offset, value)
}

/// Kinds 4, 16.
fn reflink_v(w: &mut World) -> Key {
    let offset = w.r.edge_64();
    let value = w.r.bytes(8);
    w.key(REFLINK, T_REFLINK_V, 0, offset, value)
}

/// Kind 17: the low 56 bits of the first word against the word at byte 8.
fn reflink_p(w: &mut World) -> Key {
    let pad = w.r.edge_32();
    let index = match w.edge() {
        true => u64::from(pad).wrapping_sub(w.r.pick(&[0, 1, 1, 2])),
        false => u64::from(pad) + w.r.below(3),
    };
    let top = if w.r.one_in(2) { w.r.next() & 0xff << 56 } else { 0 };
    let length = w.length(16, &[8, 12, 16, 16]);
    let mut value = vec![0; length];
    put(&mut value, 0, &(index & ((1 << 56) - 1) | top).to_le_bytes());
    put(&mut value, 8, &pad.to_le_bytes());
    let (inode, offset) = (w.r.edge_64(), w.r.edge_64());
    w.key(EXTENTS, T_REFLINK_P, inode, offset, value)
}

/// Kinds 3, 21, and 22 in the btree before: the lengths of name and value at bytes 1 and 2.
fn xattr(w: &mut World) -> Key {
    let name = if w.edge() { w.r.pick(&[0, 1, 254, 255]) } else { w.r.below(6) as u8 };
    let content = if w.edge() { w.r.pick(&[0, 255, 256, 0x102, 0xffff]) } else { w.r.below(6) as u16 };
    let needed = 4 + usize::from(name) + usize::from(content);
    let length = w.length(needed.min(1100), &[2, 4, needed, needed]);
    let mut value = vec![0; length];
    put(&mut value, 1, &[name, content as u8, (content >> 8) as u8]);
    let btree = if w.edge() { DIRENTS } else { XATTRS };
    let (inode, offset) = (w.r.edge_64(), w.r.edge_64());
    w.key(btree, T_XATTR, inode, offset, value)
}

/// Kinds 3, 4, 18.
fn cursor(w: &mut World) -> Key {
    let inode = if w.edge() { w.r.pick(&[0, 2, u64::MAX]) } else { 1 };
    w.key(LOGGED_OPS, T_CURSOR, inode, 1, Vec::new())
}

/// Kinds 3, 4.
fn set(w: &mut World) -> Key {
    let btree = w.r.pick(&[LRU, NEED_DISCARD, RECONCILE_WORK, 16, 21, 24]);
    let (inode, offset) = (w.r.edge_64(), w.r.edge_64());
    w.key(btree, T_SET, inode, offset, Vec::new())
}

/// Kind 22, and types beside it; a third on another device, for kinds 1 and 2.
fn misplaced(w: &mut World) -> Key {
    let (btree, key_type) = typed(w.r);
    let length = w.r.place(20);
    let value = w.r.bytes(length);
    let inode = if w.r.one_in(3) { w.device ^ 1 } else { w.device };
    w.key(btree, key_type, inode, 5, value)
}

/// A btree with a row of the published table and a type of this row, of any row, of those that every btree holds, or at
/// an edge; a pair to which the fields give kind 22 too; any pair; or a btree without a row.
fn typed(r: &mut Random) -> (u8, u8) {
    let rows = Published::key_types_allowed();
    let ((btree, own), (_, of_any_row)) = (r.pick(rows), r.pick(rows));
    let types = r.pick(&[own, of_any_row, Published::key_types_anywhere(), &EDGE_TYPES]);
    let key_type = if types.is_empty() { r.next() as u8 } else { r.pick(types) };
    match r.below(8) {
        0 => r.pick(&OLD_FOREIGN),
        1 => any_pair(r),
        2 => (r.pick(&UNLISTED), key_type),
        _ => (btree, key_type),
    }
}

/// Any btree and type, in half of the cases one that has a name or one soon after.
pub fn any_pair(r: &mut Random) -> (u8, u8) {
    if r.one_in(2) {
        (r.next() as u8, r.next() as u8)
    } else {
        (r.below(34) as u8, r.below(42) as u8)
    }
}

/// A pair that a rule names, or any btree and type, with a value of any bytes.
fn other(w: &mut World) -> Key {
    let (btree, key_type) = if w.edge() || w.r.one_in(4) { w.r.pick(&PAIRS) } else { any_pair(w.r) };
    let length = if w.edge() { w.r.place(100) } else { w.r.place(20) };
    let value = w.r.bytes(length);
    let inode = w.r.pick(&[0, 0, 1, w.device]);
    let offset = w.r.edge_64();
    w.key(btree, key_type, inode, offset, value)
}

/// Kinds 3, 6, 7, 8 and for kind 35 the keys accounted to a snapshot.
pub fn accounting(w: &mut World) -> Key {
    let mut position = [0; 20];
    let kind = if w.edge() { w.r.pick(&[1, 4, 7, 8, 255]) } else { w.r.pick(&[0, 2, 2, 2, 3, 5, 6]) };
    position[0] = kind;
    match kind {
        2 => replicas(w, &mut position),
        3 => position[1..3].copy_from_slice(&[w.r.below(3) as u8, w.r.below(12) as u8]),
        5 => accounted_snapshot(w, &mut position),
        6 => position[1] = w.r.below(29) as u8,
        _ => {}
    }
    if w.edge() {
        position[1 + w.r.place(19)] = w.r.pick(&[1, 128, 255]);
    }
    let counters = w.length(24, &[0, 8, 16, 24, 32, 40]);
    let mut value = vec![0; counters];
    put(&mut value, w.r.place(9), &[w.r.below(2) as u8]);
    let mut made = w.key(ACCOUNTING, T_ACCOUNTING, be64(&position[..8]), be64(&position[8..16]), value);
    if made.snapshot == 0 {
        made.snapshot = be64(&position[12..]) as u32;
    }
    made
}

/// Kind 7: data type, number of devices, number required, then the devices in increasing order.
fn replicas(w: &mut World, position: &mut [u8; 20]) {
    let devices = if w.edge() { w.r.pick(&[0, 15, 16, 17, 255]) } else { 1 + w.r.below(4) as u8 };
    let required = if w.edge() { w.r.pick(&[2, devices, devices.wrapping_sub(1), devices.wrapping_add(1), 255]) } else { w.r.below(2) as u8 };
    position[1..4].copy_from_slice(&[w.r.below(13) as u8, devices, required]);
    let mut device = w.r.below(3) as u8;
    for place in position.iter_mut().skip(4).take(devices.into()) {
        *place = device;
        device = device.wrapping_add(if w.edge() { w.r.pick(&[0, 255]) } else { 1 + w.r.below(2) as u8 });
    }
}

/// A snapshot's id in little-endian order at bytes 1 to 4, or at an edge in the other order; then a btree.
fn accounted_snapshot(w: &mut World, position: &mut [u8; 20]) {
    let id = w.id();
    let bytes = if w.edge() { id.to_be_bytes() } else { id.to_le_bytes() };
    position[1..5].copy_from_slice(&bytes);
    position[5] = w.r.below(29) as u8;
}

fn be64(bytes: &[u8]) -> u64 {
    bytes.iter().fold(0, |number, byte| number << 8 | u64::from(*byte))
}
