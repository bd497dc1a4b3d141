//! Compares both programs on what is little enough to be tried whole.
use crate::books::values::*;
use crate::compare::{self, Counts};
use crate::expected::Expected;
use crate::layout::{Book, Key};
use crate::library::Areas;
use crate::published::Finding;
use crate::texts::LAST_KEY_KIND;
use reference::{Published, Rules};

/// The longest value of a key, by the 11 bits of its length.
const LONGEST: usize = 2_047;
/// The kinds of accounting keys that are defined, the next and the last.
const ACCOUNTING_KINDS: [u64; 11] = [0, 1, REPLICAS, 3, 4, 5, 6, 7, 8, 9, 255];
const REPLICAS: u64 = 2;
/// After the kind: data type 1, one device, one required.
const ONE_DEVICE: u64 = 0x0001_0101_0000_0000;

/// How many types, and how many btrees, a byte names.
const BYTES: usize = 256;
/// Keys of a btree and a type: a plain one, and one on another device with a size and a snapshot, for kinds around 22.
const FORMS: [fn(u8, u8) -> Key; 2] = [
    |btree, key_type| key(btree, key_type, 0, 0, Vec::new()),
    |btree, key_type| Key { size: 1, snapshot: 1, ..key(btree, key_type, 1, 0, Vec::new()) },
];
const FOREIGN_TYPE: u8 = 22;
/// The kinds that the device rule gives, 1 and 2, come before 22; those of a key's fields after it.
const LAST_DEVICE_KIND: u8 = 2;

/// Compares all, and says what differs.
pub fn run() -> bool {
    let parts = [accounting_values, types];
    parts.into_iter().all(|part| match part() {
        Ok(compared) => {
            println!("{compared}, no difference");
            true
        }
        Err(what) => {
            println!("{what}");
            false
        }
    })
}

/// The judge's findings over a book, if Dockwrench says the same.
fn findings(book: Book) -> Result<Vec<Finding>, String> {
    let bytes = book.encode();
    let expected = Expected::of(&bytes);
    compare::compare_with(&expected, &bytes, &[], &mut Areas::new(), &mut Counts::new())?;
    Ok(expected.findings().to_vec())
}

/// An accounting key with nothing wrong but the length of its value.
fn accounting(kind: u64, length: usize) -> Key {
    let fields = if kind == REPLICAS { ONE_DEVICE } else { 0 };
    key(ACCOUNTING, T_ACCOUNTING, kind << 56 | fields, 0, vec![0xff; length])
}

/// Values of every length in accounting keys of each kind.
fn accounting_values() -> Result<String, String> {
    let mut found = 0;
    for length in 0..=LONGEST {
        let keys = ACCOUNTING_KINDS.iter().map(|&kind| accounting(kind, length)).collect();
        let all = findings(Book { keys, ..Book::default() });
        found += all.map_err(|what| format!("accounting keys with values of {length} bytes: {what}"))?.len();
    }
    let kinds = ACCOUNTING_KINDS.len();
    Ok(format!("accounting keys of {kinds} kinds, each with values of 0 to {LONGEST} bytes: {found} findings"))
}

/// The pairs of btree and type that have kind 22, and how many other kinds of their keys stand on each side of it.
#[derive(Default)]
struct Tally {
    foreign: Vec<(u8, u8)>,
    before: usize,
    behind: usize,
}

/// Keys of every btree and type in each form. The judge too is held to the published table: which pairs have kind 22,
/// in what place, and how many they are, which follows from the lengths of the rows.
fn types() -> Result<String, String> {
    let rows = Published::key_types_allowed();
    let held: usize = rows.iter().map(|(_, row)| row.len() + Published::key_types_anywhere().len()).sum();
    let (pairs, count, old) = (BYTES * BYTES, BYTES * rows.len() - held, OLD_FOREIGN.len());
    let (mut before, mut behind) = (0, 0);
    for form in FORMS {
        let tally = types_in(form)?;
        if tally.foreign.len() != count || !OLD_FOREIGN.iter().all(|pair| tally.foreign.contains(pair)) {
            return Err(format!("the judge gives kind 22 to other pairs than the {count}"));
        }
        before += tally.before;
        behind += tally.behind;
    }
    let found = format!("{count} foreign, {old} of them old, each with kind 22 once");
    let places = format!("{before} findings of the device before it and {behind} of the fields behind it");
    Ok(format!("keys of all {pairs} pairs of btree and type in two forms: {found}, {places}"))
}

/// All pairs in one form, the keys of a btree in one book.
fn types_in(form: fn(u8, u8) -> Key) -> Result<Tally, String> {
    let mut tally = Tally::default();
    for btree in 0..=u8::MAX {
        let keys = (0..=u8::MAX).map(|key_type| form(btree, key_type)).collect();
        let found = findings(Book { mark: true, keys, ..Book::default() });
        let found = found.map_err(|what| format!("keys of btree {btree}: {what}"))?;
        for key_type in 0..=u8::MAX {
            let of_key = found.iter().filter(|f| f.kind <= LAST_KEY_KIND && f.subject == key_type.into());
            let kinds: Vec<u8> = of_key.map(|f| f.kind).collect();
            if !tally.add((btree, key_type), &kinds) {
                return Err(format!("the judge gives kinds {kinds:?} to type {key_type} in btree {btree}"));
            }
        }
    }
    Ok(tally)
}

impl Tally {
    /// Adds the kinds of a key, in order. Says whether 22 is there as often as the table says, and in its place.
    fn add(&mut self, pair: (u8, u8), kinds: &[u8]) -> bool {
        let Some(at) = kinds.iter().position(|&kind| kind == FOREIGN_TYPE) else { return !is_foreign(pair) };
        let (before, behind) = (&kinds[..at], &kinds[at + 1..]);
        self.foreign.push(pair);
        self.before += before.len();
        self.behind += behind.len();
        let is_of_fields = |&kind: &u8| kind > LAST_DEVICE_KIND && kind != FOREIGN_TYPE;
        is_foreign(pair) && !before.iter().any(is_of_fields) && behind.iter().all(is_of_fields)
    }
}

/// Document 02's ticket 4 by a walk over the rows, apart from the judge's.
fn is_foreign((btree, key_type): (u8, u8)) -> bool {
    let has_not = |(id, row): &(u8, &[u8])| *id == btree && !row.contains(&key_type);
    Published::key_types_allowed().iter().any(has_not) && !Published::key_types_anywhere().contains(&key_type)
}
