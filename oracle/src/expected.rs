//! What documents 01 and 02 state for a book: the answers of the three calls, with the published rules as the judge of the findings.
use crate::layout::{Book, Limit, Refusal};
use crate::library::{After, Answer, FINDING_BYTES};
use crate::published::{Finding, Maps, Said};
use crate::states;
use std::collections::BTreeSet;

const NOT_ENOUGH_WORK: u8 = 9;
const NO_ROOM: u8 = 10;
const NO_ROOT: u8 = 11;

/// A book that is accepted, with its findings; or its refusal.
pub enum Expected {
    Accepted { maps: Box<Maps>, keys: usize, findings: Vec<Finding>, unavailable: BTreeSet<u32> },
    Refused(Refusal),
}

/// What is made wrong in the judge's findings.
#[derive(Clone, Copy, Debug)]
pub enum Change {
    Kind,
    Subject,
    Object,
    Order,
    Dropped,
    Doubled,
}

impl Change {
    pub const ALL: [Change; 6] = [Change::Kind, Change::Subject, Change::Object, Change::Order, Change::Dropped, Change::Doubled];

    pub fn name(self) -> &'static str {
        match self {
            Change::Kind => "another kind",
            Change::Subject => "another subject",
            Change::Object => "another object",
            Change::Order => "exchanged with a neighbour",
            Change::Dropped => "one dropped",
            Change::Doubled => "one doubled",
        }
    }
}

impl Expected {
    pub fn of(bytes: &[u8]) -> Expected {
        Expected::by(bytes, Maps::of, Maps::judge)
    }

    /// The same with maps, or with a judge, by another reading.
    pub fn by(bytes: &[u8], maps: impl Fn(&Book) -> Maps, judge: impl Fn(&Maps) -> Said) -> Expected {
        Expected::in_book(Book::decode(bytes), maps, judge)
    }

    /// The same with refusals 12 and 13 by another reading.
    pub fn within(bytes: &[u8], limit: Limit) -> Expected {
        Expected::in_book(Book::decode_by(bytes, limit), Maps::of, Maps::judge)
    }

    fn in_book(read: Result<Book, Refusal>, maps: impl Fn(&Book) -> Maps, judge: impl Fn(&Maps) -> Said) -> Expected {
        match read {
            Err(refusal) => Expected::Refused(refusal),
            Ok(book) => {
                let maps = Box::new(maps(&book));
                let said = judge(&maps);
                let mut findings = said.findings();
                name_states(&book, &mut findings);
                Expected::Accepted { maps, keys: book.keys.len(), findings, unavailable: said.unavailable }
            }
        }
    }

    pub fn findings(&self) -> &[Finding] {
        match self {
            Expected::Accepted { findings, .. } => findings,
            Expected::Refused(_) => &[],
        }
    }

    /// Makes one finding of a kind wrong, the last, for a test of the comparison. Says whether there is one to change.
    pub fn change(&mut self, change: Change, kind: u8) -> bool {
        let Expected::Accepted { findings, .. } = self else { return false };
        let Some(last) = findings.iter().rposition(|f| f.kind == kind) else { return false };
        match change {
            Change::Kind => findings[last].kind = kind % 50 + 1,
            Change::Subject => findings[last].subject ^= 1,
            Change::Object => findings[last].object ^= 1,
            Change::Order => return exchange(findings, last),
            Change::Dropped => drop(findings.remove(last)),
            Change::Doubled => findings.insert(last, findings[last]),
        }
        true
    }

    /// The work words that the book needs.
    pub fn words(&self) -> usize {
        match self {
            Expected::Accepted { keys, .. } => 2 * keys,
            Expected::Refused(_) => 0,
        }
    }

    /// The main call's answer, and what it leaves in the areas, with so many bytes and words lent.
    pub fn check(&self, room: usize, words: usize) -> After<'_> {
        let answer = |number, place, count| Answer { number, place, count };
        match self {
            Expected::Refused(Refusal(number, place)) => After { answer: answer(*number, *place as u32, 0), written: &[], zeroed: false },
            _ if words < self.words() => After { answer: answer(NOT_ENOUGH_WORK, 0, 0), written: &[], zeroed: false },
            Expected::Accepted { findings, .. } => {
                let whole = findings.len().min(room / FINDING_BYTES);
                let number = if whole < findings.len() { NO_ROOM } else { 0 };
                After { answer: answer(number, 0, findings.len() as u32), written: &findings[..whole], zeroed: true }
            }
        }
    }

    /// The ancestor question's answer: links in the middle, the root in the low bits.
    pub fn ancestor(&self, id: u32) -> Answer {
        match self {
            Expected::Refused(refusal) => refused(*refusal),
            Expected::Accepted { maps, .. } => match maps.ancestor(id) {
                Some((root, links)) => Answer { number: 0, place: links, count: root },
                None => Answer { number: NO_ROOT, place: 0, count: 0 },
            },
        }
    }

    /// The availability question's answer.
    pub fn unavailable(&self, id: u32) -> Answer {
        match self {
            Expected::Refused(refusal) => refused(*refusal),
            Expected::Accepted { unavailable, .. } => Answer { number: 0, place: 0, count: u32::from(unavailable.contains(&id)) },
        }
    }
}

/// Puts in the state words that two kinds have as object, and the published program does not print.
fn name_states(book: &Book, findings: &mut [Finding]) {
    for finding in findings {
        let key = usize::try_from(finding.subject).ok().and_then(|at| book.keys.get(at));
        if let Some(state) = key.and_then(|key| states::object(finding.kind, key)) {
            finding.object = state;
        }
    }
}

/// Exchanges a finding with the one before it or behind it that is another; says whether there is one.
fn exchange(findings: &mut [Finding], at: usize) -> bool {
    let is_other = |&other: &usize| findings.get(other).is_some_and(|f| *f != findings[at]);
    let other = [at.wrapping_sub(1), at + 1].into_iter().find(is_other);
    other.is_some_and(|other| {
        findings.swap(at, other);
        true
    })
}

fn refused(Refusal(number, place): Refusal) -> Answer {
    Answer { number, place: place as u32, count: 0 }
}
