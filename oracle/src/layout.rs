//! The packed book of document 01, with the drawn mark of document 02's ticket 2 and the limit of ticket 6: written from
//! fields, and read with its refusals. Written from these documents alone, so that it is a second reading of the same
//! sentences and not a copy of the proved one.

/// A book over this many bytes is refused.
pub const LONGEST_BOOK: usize = 1_048_576;
pub const HEADER_BYTES: usize = 32;
/// The first byte of a header: the layout is the high half, then come the two marks. Its last two bits and the second byte are spare.
const LAYOUT: u8 = 0x10;
pub const TREES_MARK: u8 = 0x08;
pub const DRAWN_MARK: u8 = 0x04;
pub const KEY_HEAD_BYTES: usize = 28;
/// The largest number that the 11 bits of a value's length hold.
pub const LONGEST_VALUE: usize = 2047;
/// The btree whose keys need the trees mark.
pub const SNAPSHOT_TREES: u8 = 15;
/// The most entries of a parents table.
pub const MOST_PARENTS: u16 = 4_096;

#[derive(Clone, Debug, Default, PartialEq, Eq)]
pub struct Key {
    pub btree: u8,
    pub key_type: u8,
    pub size: u32,
    pub inode: u64,
    pub offset: u64,
    pub snapshot: u32,
    pub value: Vec<u8>,
}

#[derive(Clone, Debug, Default, PartialEq, Eq)]
pub struct Book {
    pub mark: bool,
    /// Whether parents are drawn from the keys; the parents table then has to be empty.
    pub drawn: bool,
    pub version: u16,
    pub first_bucket: u16,
    pub device: u64,
    pub buckets: u64,
    pub parents: Vec<(u32, u32)>,
    pub subvolumes: Vec<(u32, u32)>,
    pub gens: Vec<(u64, u8)>,
    pub alloc: Vec<(u64, Option<u8>)>,
    pub keys: Vec<Key>,
}

/// A refusal: its number in document 01 or 02, and the place.
#[derive(Clone, Copy, Debug, PartialEq, Eq)]
pub struct Refusal(pub u8, pub usize);

/// What a header says of parents: the drawn mark, and the counts of the table and of the keys.
#[derive(Clone, Copy)]
pub struct Asked {
    pub drawn: bool,
    pub parents: u16,
    pub keys: u16,
}

/// The refusal, if any, that a header's parents give before any entry is read.
pub type Limit = fn(Asked) -> Option<u8>;

/// Ticket 2's refusal 12, and directly after it ticket 6's 13. Drawn parents are not counted.
pub fn limit(asked: Asked) -> Option<u8> {
    if asked.drawn && asked.parents != 0 {
        return Some(12);
    }
    (asked.parents > MOST_PARENTS).then_some(13)
}

impl Book {
    /// The bytes of a book. Entries are written in the order in which they stand, also where that is not a book's.
    pub fn encode(&self) -> Vec<u8> {
        let mut b = Vec::new();
        let marks = if self.mark { TREES_MARK } else { 0 } | if self.drawn { DRAWN_MARK } else { 0 };
        b.extend([LAYOUT | marks, 0]);
        b.extend(self.version.to_be_bytes());
        b.extend(self.first_bucket.to_be_bytes());
        b.extend((self.keys.len() as u16).to_be_bytes());
        b.extend(self.device.to_be_bytes());
        b.extend(self.buckets.to_be_bytes());
        for count in [self.parents.len(), self.subvolumes.len(), self.gens.len(), self.alloc.len()] {
            b.extend((count as u16).to_be_bytes());
        }
        for (id, word) in self.parents.iter().chain(&self.subvolumes) {
            b.extend(id.to_be_bytes());
            b.extend(word.to_be_bytes());
        }
        for (bucket, generation) in &self.gens {
            b.extend(bucket.to_be_bytes());
            b.push(*generation);
        }
        for (bucket, data_type) in &self.alloc {
            b.extend(bucket.to_be_bytes());
            b.extend(data_type.map_or(0, |t| 0x8000 | u16::from(t) << 7).to_be_bytes());
        }
        for key in &self.keys {
            key.encode(&mut b);
        }
        b
    }

    /// The book that bytes are, or the first refusal of 1 to 8, 12 and 13.
    pub fn decode(bytes: &[u8]) -> Result<Book, Refusal> {
        Book::decode_by(bytes, limit)
    }

    /// The same with 12 and 13 by another reading.
    pub fn decode_by(bytes: &[u8], limit: Limit) -> Result<Book, Refusal> {
        if bytes.len() > LONGEST_BOOK {
            return Err(Refusal(1, 0));
        }
        if bytes.len() < HEADER_BYTES {
            return Err(Refusal(2, 0));
        }
        if bytes[0] & !(TREES_MARK | DRAWN_MARK) != LAYOUT || bytes[1] != 0 {
            return Err(Refusal(3, 0));
        }
        let half = |at: usize| u16::from_be_bytes([bytes[at], bytes[at + 1]]);
        let (drawn, parents) = (bytes[0] & DRAWN_MARK != 0, half(24));
        if let Some(number) = limit(Asked { drawn, parents, keys: half(6) }) {
            return Err(Refusal(number, 0));
        }
        let mut book = Book {
            mark: bytes[0] & TREES_MARK != 0,
            drawn,
            version: half(2),
            first_bucket: half(4),
            device: be64(bytes, 8),
            buckets: be64(bytes, 16),
            ..Book::default()
        };
        let mut rest = Rest { bytes, at: HEADER_BYTES };
        for (table, count) in [(0, parents), (1, half(26))] {
            let mut last = None;
            for _ in 0..count {
                let (start, e) = rest.entry(8)?;
                let id = be32(e, 0);
                rising(&mut last, u64::from(id), start)?;
                let entries = if table == 0 { &mut book.parents } else { &mut book.subvolumes };
                entries.push((id, be32(e, 4)));
            }
        }
        let mut last = None;
        for _ in 0..half(28) {
            let (start, e) = rest.entry(9)?;
            rising(&mut last, be64(e, 0), start)?;
            book.gens.push((be64(e, 0), e[8]));
        }
        let mut last = None;
        for _ in 0..half(30) {
            let (start, e) = rest.entry(10)?;
            let word = u16::from_be_bytes([e[8], e[9]]);
            let (has_type, data_type, spare) = (word >> 15 == 1, (word >> 7) as u8, word & 0x7f);
            if spare != 0 || (!has_type && data_type != 0) {
                return Err(Refusal(5, start));
            }
            rising(&mut last, be64(e, 0), start)?;
            book.alloc.push((be64(e, 0), has_type.then_some(data_type)));
        }
        for _ in 0..half(6) {
            book.keys.push(rest.key(book.mark)?);
        }
        if rest.at < bytes.len() {
            return Err(Refusal(8, rest.at));
        }
        Ok(book)
    }
}

impl Key {
    fn encode(&self, b: &mut Vec<u8>) {
        assert!(self.value.len() <= LONGEST_VALUE);
        b.extend([self.btree, self.key_type]);
        b.extend(((self.value.len() as u16) << 5).to_be_bytes());
        b.extend(self.size.to_be_bytes());
        b.extend(self.inode.to_be_bytes());
        b.extend(self.offset.to_be_bytes());
        b.extend(self.snapshot.to_be_bytes());
        b.extend(&self.value);
    }
}

/// The bytes of a book from a place on.
struct Rest<'a> {
    bytes: &'a [u8],
    at: usize,
}

impl<'a> Rest<'a> {
    /// The next entry of so many bytes with its start; refusal 4 where it runs past the end.
    fn entry(&mut self, bytes: usize) -> Result<(usize, &'a [u8]), Refusal> {
        let start = self.at;
        let entry = self.bytes.get(start..start + bytes).ok_or(Refusal(4, start))?;
        self.at += bytes;
        Ok((start, entry))
    }

    /// The next key; at each key 4, 5 and 7 in this order, and the 4 of its value too comes before its 5.
    fn key(&mut self, mark: bool) -> Result<Key, Refusal> {
        let (start, head) = self.entry(KEY_HEAD_BYTES)?;
        let word = u16::from_be_bytes([head[2], head[3]]);
        let (_, value) = self.entry(usize::from(word >> 5)).map_err(|_| Refusal(4, start))?;
        if word & 0x1f != 0 {
            return Err(Refusal(5, start));
        }
        if head[0] == SNAPSHOT_TREES && !mark {
            return Err(Refusal(7, start));
        }
        Ok(Key {
            btree: head[0],
            key_type: head[1],
            size: be32(head, 4),
            inode: be64(head, 8),
            offset: be64(head, 16),
            snapshot: be32(head, 24),
            value: value.to_vec(),
        })
    }
}

/// Refusal 6 where a first field is not above the one before.
fn rising(last: &mut Option<u64>, first: u64, start: usize) -> Result<(), Refusal> {
    if last.is_some_and(|l| first <= l) {
        return Err(Refusal(6, start));
    }
    *last = Some(first);
    Ok(())
}

fn be32(b: &[u8], at: usize) -> u32 {
    u32::from_be_bytes(b[at..at + 4].try_into().unwrap())
}

fn be64(b: &[u8], at: usize) -> u64 {
    u64::from_be_bytes(b[at..at + 8].try_into().unwrap())
}
