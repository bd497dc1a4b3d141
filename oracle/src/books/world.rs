//! The pools and probabilities from which the keys of one mixed book are drawn.

use super::random::Random;
use super::values::key;
use crate::layout::{Key, LONGEST_VALUE};

pub struct World<'a> {
    pub r: &'a mut Random,
    /// Ids of snapshots, subvolumes and trees alike, so that links between keys hit.
    pub ids: [u32; 4],
    pub device: u64,
    /// One in so many fields is at an edge; 0 for none.
    pub edges: u64,
}

impl World<'_> {
    pub fn new(r: &mut Random, device: u64) -> World<'_> {
        let ids = match r.below(8) {
            0 => [u32::MAX, u32::MAX - 1, u32::MAX - 2, 1],
            1 => [1, 0x0100_0000, 2, 0x0200_0000],
            2 => [1, r.edge_32(), r.edge_32(), r.next() as u32],
            3 => [1, 1, 2, 2],
            _ => [1, 2, 3, 4 + r.below(3) as u32],
        };
        let edges = r.pick(&[0, 30, 30, 10]);
        World { r, ids, device, edges }
    }

    /// Whether the next field is at an edge.
    pub fn edge(&mut self) -> bool {
        self.edges != 0 && self.r.one_in(self.edges)
    }

    /// An id of the pool.
    pub fn id(&mut self) -> u32 {
        let id = self.r.pick(&self.ids);
        match self.edge() {
            true => self.r.edge_32(),
            false => id,
        }
    }

    /// An id of the pool, or in one of n none.
    pub fn id_or_none(&mut self, n: u64) -> u32 {
        match self.r.one_in(n) {
            true => 0,
            false => self.id(),
        }
    }

    /// A value's length: the usual one, or at an edge one below, at or one above a length that a rule reads.
    pub fn length(&mut self, usual: usize, read: &[usize]) -> usize {
        if !self.edge() {
            return usual;
        }
        match self.r.below(8) {
            0 => self.r.place(8),
            1 => (usual + self.r.place(9)).min(LONGEST_VALUE),
            _ => (self.r.pick(read) + self.r.place(3)).saturating_sub(1).min(LONGEST_VALUE),
        }
    }

    /// A state word: a listed one, the first in half the cases; at an edge with 1 to 8 flipped bits, none, or any word.
    pub fn state(&mut self, states: &[u32]) -> u32 {
        let state = if self.r.one_in(2) { states[0] } else { self.r.pick(states) };
        if !self.edge() {
            return state;
        }
        match self.r.below(10) {
            0 => 0,
            1 => self.r.next() as u32,
            _ => self.flipped(state),
        }
    }

    /// A word with 1 to 8 flipped bits.
    pub fn flipped(&mut self, word: u32) -> u32 {
        let bits = 1 + self.r.below(8) as u32;
        let mut mask = 0u32;
        while mask.count_ones() < bits {
            mask |= 1 << self.r.below(32);
        }
        word ^ mask
    }

    /// Bit 1 where there is a subvolume; other bits now and then.
    pub fn flags(&mut self, subvolume: u32) -> u32 {
        let wrong = self.edge();
        let others = if self.r.one_in(4) { self.r.edge_32() & !2 } else { 0 };
        others | if (subvolume != 0) == wrong { 0 } else { 2 }
    }

    /// A pad word.
    pub fn pad(&mut self) -> u32 {
        match self.edge() {
            true => self.r.pick(&[1, 0x100, 0x1_0000, 0x100_0000, 0x8000_0000]),
            false => 0,
        }
    }

    /// A key; at edges its size, snapshot, position or type is another.
    pub fn key(&mut self, btree: u8, key_type: u8, inode: u64, offset: u64, value: Vec<u8>) -> Key {
        let mut made = key(btree, key_type, inode, offset, value);
        if self.edge() {
            made.size = self.r.edge_32();
        }
        if self.edge() {
            made.snapshot = self.r.edge_32();
        }
        if self.edge() {
            made.inode = if self.r.one_in(2) { self.r.near(inode) } else { self.r.edge_64() };
        }
        if self.edge() {
            made.offset = self.other_offset(offset);
        }
        if self.edge() && self.r.one_in(2) {
            made.key_type = self.r.pick(&[0, 1, 2, 25, key_type.wrapping_add(1), key_type.wrapping_sub(1)]);
        }
        made
    }

    /// Another offset, often with the same low half.
    fn other_offset(&mut self, offset: u64) -> u64 {
        match self.r.below(4) {
            0 => offset.wrapping_add(1 << 32),
            1 => offset | 1 << 63,
            2 => self.r.near(offset),
            _ => self.r.edge_64(),
        }
    }
}
