//! Numbers that follow from a seed alone (splitmix64), with the edges of the words in a book.

/// Numbers at which a 64-bit field changes its meaning, or wraps.
const EDGES_64: [u64; 20] = [
    0,
    1,
    2,
    255,
    256,
    0xffff,
    0x1_0000,
    0x7fff_ffff,
    0x8000_0000,
    0xffff_fffe,
    0xffff_ffff,
    0x1_0000_0000,
    0x1_0000_0001,
    (1 << 48) - 1,
    (1 << 56) - 1,
    1 << 56,
    (1 << 56) + 1,
    1 << 63,
    u64::MAX - 1,
    u64::MAX,
];

pub struct Random(u64);

impl Random {
    /// The numbers of a mode, a seed and an index.
    pub fn new(mode: u64, seed: u64, index: u64) -> Random {
        Random(mix(mix(mix(mode).wrapping_add(seed)).wrapping_add(index)))
    }

    pub fn next(&mut self) -> u64 {
        self.0 = self.0.wrapping_add(0x9e37_79b9_7f4a_7c15);
        mix(self.0)
    }

    /// A number below n, which is not 0.
    pub fn below(&mut self, n: u64) -> u64 {
        ((u128::from(self.next()) * u128::from(n)) >> 64) as u64
    }

    /// An index into n elements, n not 0.
    pub fn place(&mut self, n: usize) -> usize {
        self.below(n as u64) as usize
    }

    pub fn one_in(&mut self, n: u64) -> bool {
        self.below(n) == 0
    }

    pub fn pick<T: Copy>(&mut self, list: &[T]) -> T {
        list[self.place(list.len())]
    }

    /// An edge of 64 bits, or in one of eight any number.
    pub fn edge_64(&mut self) -> u64 {
        if self.one_in(8) {
            self.next()
        } else {
            self.pick(&EDGES_64)
        }
    }

    /// An edge of 32 bits.
    pub fn edge_32(&mut self) -> u32 {
        self.edge_64() as u32
    }

    /// A number up to 2 away, wrapping.
    pub fn near(&mut self, number: u64) -> u64 {
        number.wrapping_add(self.below(5)).wrapping_sub(2)
    }

    pub fn bytes(&mut self, n: usize) -> Vec<u8> {
        (0..n).map(|_| self.next() as u8).collect()
    }

    pub fn shuffle<T>(&mut self, list: &mut [T]) {
        for i in (1..list.len()).rev() {
            list.swap(i, self.place(i + 1));
        }
    }
}

fn mix(word: u64) -> u64 {
    let word = (word ^ (word >> 30)).wrapping_mul(0xbf58_476d_1ce4_e5b9);
    let word = (word ^ (word >> 27)).wrapping_mul(0x94d0_49bb_1331_11eb);
    word ^ (word >> 31)
}
