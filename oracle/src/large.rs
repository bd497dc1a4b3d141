//! Compares both programs on books as long as they can be: those of docs/SPEED.md, in other orders and with changes that give much to find.
//! The books of a run are short, and their sorts with them.
use crate::books::values::*;
use crate::compare::{self, Counts};
use crate::expected::Expected;
use crate::layout::{Book, Key};
use crate::library::Areas;
use crate::speed;

/// What is done to the keys of a book before it is compared.
const CHANGES: [(&str, fn(&mut Vec<Key>)); 4] = [
    ("as it is", |_| ()),
    ("backwards", |keys| keys.reverse()),
    ("in no order", speed::mix),
    ("with offsets off by one", |keys| keys.iter_mut().step_by(7).for_each(|key| key.offset ^= 1)),
];

/// Runs of all lengths over 30,000 alloc entries of all types, with gaps between the entries: most runs hold more than are read one by one.
fn runs_in_use() -> Book {
    let buckets = 90_000;
    let data_type = |i: u64| [Some(0), None, None, Some(0), Some(1 + (i % 11) as u8), None, Some(0)][(i * i % 7) as usize];
    let alloc = (0..30_000).map(|i| (3 * i, if i < 12_000 { None } else { data_type(i) })).collect();
    let run = |i: u64| {
        let (start, size) = (i * 7_919 % buckets, i * i * 31 % 40_000);
        let end = buckets.min(start + size);
        Key { size: (end - start) as u32, ..key(FREESPACE, T_SET, 0, end, Vec::new()) }
    };
    Book { mark: true, first_bucket: 5, buckets, alloc, keys: (0..2_000).map(run).collect(), ..Book::default() }
}

/// Compares them all, and says what differs.
pub fn run() -> bool {
    let mut areas = Areas::new();
    let mut is_same = true;
    let runs = ("2,000 runs over 30,000 alloc entries", runs_in_use());
    let timed = [speed::rows(), speed::tables(), speed::drawn(), speed::types()];
    let books = timed.into_iter().flatten().chain([runs]).map(|(name, book)| (name, book, Vec::new()));
    let questions = speed::questions().into_iter().map(|(name, book, id)| (name, book, vec![id, id + 1]));
    for (name, book, ids) in books.chain(questions) {
        for (change, apply) in CHANGES {
            let mut book = book.clone();
            apply(&mut book.keys);
            let (bytes, mut counts) = (book.encode(), Counts::new());
            let expected = Expected::of(&bytes);
            match compare::compare_with(&expected, &bytes, &ids, &mut areas, &mut counts) {
                Ok(()) => println!("{name}, {change}: {} findings, no difference", expected.findings().len()),
                Err(what) => {
                    println!("{name}, {change}: {what}");
                    is_same = false;
                }
            }
        }
    }
    is_same
}
