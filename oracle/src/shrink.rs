//! Makes a book smaller while something still holds of it.
use crate::layout::{Book, DRAWN_MARK, TREES_MARK};
use std::ops::Range;
use std::time::{Duration, Instant};

/// How long a book is made smaller at most. A long book takes some hundredths of a second to judge, and where nearly all
/// of its keys are needed there are more steps than keys.
const LONGEST: Duration = Duration::from_secs(60);
/// The single bytes of longer books are left as they are.
const LONGEST_BY_BYTES: usize = 4096;

/// The smallest book that was found: no single step makes it smaller, if there was time for all. Shorter is smaller; of
/// one length, fewer bytes that are not zero; of as many of these, fewer marks.
pub fn smallest(book: Vec<u8>, holds: impl FnMut(&[u8]) -> bool) -> Vec<u8> {
    let mut shrinker = Shrinker { book, holds, until: Instant::now() + LONGEST };
    loop {
        let before = size(&shrinker.book);
        shrinker.marks();
        shrinker.parts();
        shrinker.values();
        shrinker.cuts();
        shrinker.bytes();
        if size(&shrinker.book) == before {
            return shrinker.book;
        }
    }
}

fn size(bytes: &[u8]) -> (usize, usize, u32) {
    let marks = bytes.first().map_or(0, |first| (first & (TREES_MARK | DRAWN_MARK)).count_ones());
    (bytes.len(), bytes.iter().filter(|&&b| b != 0).count(), marks)
}

/// A table of a book: its length, and the book without a range of it.
type Table = (fn(&Book) -> usize, fn(&mut Book, Range<usize>));

const TABLES: [Table; 5] = [
    (|b| b.keys.len(), |b, range| drop(b.keys.drain(range))),
    (|b| b.parents.len(), |b, range| drop(b.parents.drain(range))),
    (|b| b.subvolumes.len(), |b, range| drop(b.subvolumes.drain(range))),
    (|b| b.gens.len(), |b, range| drop(b.gens.drain(range))),
    (|b| b.alloc.len(), |b, range| drop(b.alloc.drain(range))),
];

struct Shrinker<F> {
    book: Vec<u8>,
    holds: F,
    until: Instant,
}

impl<F: FnMut(&[u8]) -> bool> Shrinker<F> {
    /// Takes a book made from the last if it is smaller and it holds of it. Says whether it did.
    fn take(&mut self, make: impl FnOnce(&[u8]) -> Option<Vec<u8>>) -> bool {
        if Instant::now() >= self.until {
            return false;
        }
        let made = make(&self.book).filter(|made| size(made) < size(&self.book) && (self.holds)(made));
        let is_taken = made.is_some();
        self.book = made.unwrap_or(std::mem::take(&mut self.book));
        is_taken
    }

    /// The same for the book with a change, if it is a whole one.
    fn change(&mut self, apply: impl FnOnce(&mut Book)) -> bool {
        self.take(|bytes| {
            let mut book = Book::decode(bytes).ok()?;
            apply(&mut book);
            Some(book.encode())
        })
    }

    /// Clears the marks, also where it is no whole book.
    fn marks(&mut self) {
        for mark in [DRAWN_MARK, TREES_MARK] {
            self.take(|bytes| Some([&[bytes.first()? & !mark], &bytes[1..]].concat()));
        }
    }

    /// Leaves out entries and keys.
    fn parts(&mut self) {
        for (length, without) in TABLES {
            let count = Book::decode(&self.book).map_or(0, |book| length(&book));
            leave_out(count, |range| self.change(|book| without(book, range)));
        }
    }

    /// Makes values shorter.
    fn values(&mut self) {
        let keys = Book::decode(&self.book).map_or(Vec::new(), |book| book.keys);
        for (i, key) in keys.iter().enumerate() {
            let mut length = key.value.len();
            let shorter = |length: usize| [0, length / 2, length.saturating_sub(1)];
            while let Some(less) = shorter(length).into_iter().find(|&less| self.change(|book| book.keys[i].value.truncate(less))) {
                length = less;
            }
        }
    }

    /// Leaves out bytes of what is no whole book.
    fn cuts(&mut self) {
        if Book::decode(&self.book).is_err() {
            leave_out(self.book.len(), |range| self.take(|bytes| Some([&bytes[..range.start], &bytes[range.end..]].concat())));
        }
    }

    /// Makes bytes zero.
    fn bytes(&mut self) {
        let length = if self.book.len() <= LONGEST_BY_BYTES { self.book.len() } else { 0 };
        for i in 0..length {
            self.take(|bytes| Some([&bytes[..i], &[0], &bytes[i + 1..]].concat()));
        }
    }
}

/// Goes over the ranges of so many things, first all of them, then halves and so on to single ones. The call leaves a
/// range out, or says that it did not.
fn leave_out(mut count: usize, mut without: impl FnMut(Range<usize>) -> bool) {
    let mut step = count;
    while step > 0 {
        let mut from = 0;
        while from < count {
            let end = count.min(from + step);
            if without(from..end) {
                count -= end - from;
            } else {
                from = end;
            }
        }
        step /= 2;
    }
}
