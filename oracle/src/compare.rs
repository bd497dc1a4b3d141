//! A differential run: each book goes through the static library and through the published rules, with several lengths lent.
use crate::books::{self, Mode};
use crate::expected::Expected;
use crate::library::{self, Areas, FINDING_BYTES};
use crate::shrink;
use crate::states;
use std::sync::atomic::{AtomicBool, Ordering};

/// How many numbers an answer may have: 0 to 13.
const NUMBERS: usize = 14;

/// How often each kind and each number of an answer was reached.
#[derive(Clone)]
pub struct Counts {
    pub books: u64,
    pub accepted: u64,
    /// By kind, 1 to 50: in how many books it was found.
    pub kinds: [u64; 51],
    /// By state, in the order of `states::NAMES`: in how many books it was named.
    pub states: [u64; 7],
    /// By number: how many answers of the main call and of the ancestor question had it.
    pub numbers: [u64; NUMBERS],
}

impl Counts {
    pub fn new() -> Counts {
        Counts { books: 0, accepted: 0, kinds: [0; 51], states: [0; 7], numbers: [0; NUMBERS] }
    }

    pub fn add(&mut self, other: &Counts) {
        self.books += other.books;
        self.accepted += other.accepted;
        self.kinds.iter_mut().zip(other.kinds).for_each(|(a, b)| *a += b);
        self.states.iter_mut().zip(other.states).for_each(|(a, b)| *a += b);
        self.numbers.iter_mut().zip(other.numbers).for_each(|(a, b)| *a += b);
    }

    pub fn count(&mut self, expected: &Expected) {
        self.books += 1;
        self.accepted += u64::from(matches!(expected, Expected::Accepted { .. }));
        let mut seen = [false; 51];
        expected.findings().iter().for_each(|f| seen[usize::from(f.kind)] = true);
        self.kinds.iter_mut().zip(seen).for_each(|(count, is_seen)| *count += u64::from(is_seen));
        let mut named = [false; 7];
        expected.findings().iter().filter_map(states::named).for_each(|state| named[state] = true);
        self.states.iter_mut().zip(named).for_each(|(count, is_named)| *count += u64::from(is_named));
    }

    /// The kinds, states and numbers that no book reached.
    pub fn missing(&self) -> Vec<String> {
        let kinds = (1..=50).filter(|&k| self.kinds[k] == 0).map(|k| format!("kind {k}"));
        let numbers = (0..NUMBERS).filter(|&n| self.numbers[n] == 0).map(|n| format!("answer {n}"));
        let states = states::NAMES.iter().zip(self.states).filter(|(_, count)| *count == 0).map(|((_, name), _)| format!("state {name}"));
        kinds.chain(states).chain(numbers).collect()
    }
}

/// A book that shows a difference, made as small as it could be.
pub struct Difference {
    pub mode: Mode,
    pub index: u64,
    pub book: Vec<u8>,
    pub what: String,
}

/// The lengths lent to a book: exact, a byte short, a word short, half of the findings and some bytes, longer.
pub fn lengths(expected: &Expected) -> Vec<(usize, usize)> {
    let (room, words) = (expected.findings().len() * FINDING_BYTES, expected.words());
    let half = expected.findings().len() / 2 * FINDING_BYTES + 5;
    let mut all = vec![(room, words), (room + 23, words + 3)];
    if room > 0 {
        all.extend([(room - 1, words), (half.min(room - 1), words + 1)]);
    }
    if words > 0 {
        all.push((room, words - 1));
    }
    all
}

/// Compares one book, also in the questions for these ids. Says what differs.
pub fn compare(bytes: &[u8], ids: &[u32], areas: &mut Areas, counts: &mut Counts) -> Result<(), String> {
    compare_with(&Expected::of(bytes), bytes, ids, areas, counts)
}

/// The same with answers that are given.
pub fn compare_with(expected: &Expected, bytes: &[u8], ids: &[u32], areas: &mut Areas, counts: &mut Counts) -> Result<(), String> {
    counts.count(expected);
    for (room, words) in lengths(expected) {
        let after = expected.check(room, words);
        counts.numbers[usize::from(after.answer.number)] += 1;
        let same = areas.check(bytes, room, words, &after);
        same.map_err(|what| format!("with {room} bytes and {words} words lent, Dockwrench {what}"))?;
    }
    for &id in ids {
        let (want, got) = (expected.ancestor(id), library::ancestor(bytes, id));
        counts.numbers[usize::from(want.number)] += 1;
        if got != want {
            return Err(format!("asked for the ancestor of {id}, Dockwrench answers {got}, not {want} (number, links, root)"));
        }
        let (want, got) = (expected.unavailable(id), library::unavailable(bytes, id));
        if got != want {
            return Err(format!("asked whether {id} is unavailable, Dockwrench answers {got}, not {want} (number, place, yes)"));
        }
    }
    Ok(())
}

/// The books of one mode and of these indexes, shared by so many threads.
pub fn run(mode: Mode, seed: u64, indexes: std::ops::Range<u64>, threads: u64) -> Result<Counts, Box<Difference>> {
    let stop = AtomicBool::new(false);
    let parts: Vec<_> = std::thread::scope(|scope| {
        let part = |first| {
            let (stop, indexes) = (&stop, indexes.clone());
            scope.spawn(move || run_part(mode, seed, (indexes.start + first..indexes.end).step_by(threads as usize), stop))
        };
        let handles: Vec<_> = (0..threads).map(part).collect();
        handles.into_iter().map(|h| h.join().expect("a thread of the run ended early")).collect()
    });
    let mut counts = Counts::new();
    for part in parts {
        counts.add(&part?);
    }
    Ok(counts)
}

fn run_part(mode: Mode, seed: u64, indexes: impl Iterator<Item = u64>, stop: &AtomicBool) -> Result<Counts, Box<Difference>> {
    let (mut areas, mut counts) = (Areas::new(), Counts::new());
    for index in indexes {
        if stop.load(Ordering::Relaxed) {
            break;
        }
        let bytes = books::book(mode, seed, index);
        let ids = books::asked(&bytes, seed, index);
        if compare(&bytes, &ids, &mut areas, &mut counts).is_err() {
            stop.store(true, Ordering::Relaxed);
            return Err(Box::new(smallest(mode, index, bytes, &ids)));
        }
    }
    Ok(counts)
}

/// The smallest book found that still differs.
fn smallest(mode: Mode, index: u64, bytes: Vec<u8>, ids: &[u32]) -> Difference {
    let mut areas = Areas::new();
    let mut differs = |book: &[u8]| compare(book, ids, &mut areas, &mut Counts::new()).err();
    let book = shrink::smallest(bytes, |book| differs(book).is_some());
    let what = differs(&book).expect("the smallest book differs");
    Difference { mode, index, book, what }
}
