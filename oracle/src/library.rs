//! The static library's three entries, called as a C program calls them, with every byte and word of what is lent watched.
use crate::published::Finding;
use std::fmt;

extern "C" {
    fn dockwrench_check(book: *const u8, bytes: usize, findings: *mut u8, room: usize, work: *mut u64, words: usize) -> u64;
    fn dockwrench_ancestor(book: *const u8, bytes: usize, id: u32) -> u64;
    fn dockwrench_unavailable(book: *const u8, bytes: usize, id: u32) -> u64;
}

/// What the areas hold before a call.
const FILL: u8 = 0xa5;
const FILL_WORD: u64 = u64::from_ne_bytes([FILL; 8]);
/// Bytes and words after what is lent; no call may write there.
const BEYOND: usize = 32;
/// Bytes of a finding.
pub const FINDING_BYTES: usize = 17;

/// An answer taken apart: the top 8 bits, the next 24, the low 32.
#[derive(Clone, Copy, Debug, PartialEq, Eq)]
pub struct Answer {
    pub number: u8,
    pub place: u32,
    pub count: u32,
}

impl Answer {
    fn of(packed: u64) -> Answer {
        Answer { number: (packed >> 56) as u8, place: (packed >> 32) as u32 & 0xff_ffff, count: packed as u32 }
    }
}

impl fmt::Display for Answer {
    fn fmt(&self, f: &mut fmt::Formatter<'_>) -> fmt::Result {
        write!(f, "{} {} {}", self.number, self.place, self.count)
    }
}

/// The two areas, with room for the longest that a run lends. Between calls they hold `FILL` everywhere.
pub struct Areas {
    findings: Vec<u8>,
    work: Vec<u64>,
}

/// The areas as a call should leave them.
pub struct After<'a> {
    pub answer: Answer,
    /// The findings that are first in the buffer, whole.
    pub written: &'a [Finding],
    /// Whether the work area is zero, or untouched.
    pub zeroed: bool,
}

impl Areas {
    pub fn new() -> Areas {
        Areas { findings: Vec::new(), work: Vec::new() }
    }

    /// The main call with so many bytes and words lent. Says what is wrong, if anything is.
    pub fn check(&mut self, book: &[u8], room: usize, words: usize, want: &After) -> Result<(), String> {
        self.findings.clear();
        self.findings.resize(room + BEYOND, FILL);
        self.work.clear();
        self.work.resize(words + BEYOND, FILL_WORD);
        // SAFETY: each pointer is good for its length, and the three areas are apart.
        let packed = unsafe { dockwrench_check(book.as_ptr(), book.len(), self.findings.as_mut_ptr(), room, self.work.as_mut_ptr(), words) };
        let got = Answer::of(packed);
        if got != want.answer {
            return Err(format!("answers {got}, not {}; its buffer begins with {}", want.answer, self.begins_with(room, got.count as usize)));
        }
        self.compare_findings(want)?;
        self.compare_work(words, want)
    }

    fn compare_findings(&self, want: &After) -> Result<(), String> {
        let end = want.written.len() * FINDING_BYTES;
        for (i, (bytes, finding)) in self.findings.chunks(FINDING_BYTES).zip(want.written).enumerate() {
            if bytes != finding.encode() {
                return Err(format!("has {} as finding {i}, not {finding}", Finding::decode(bytes)));
            }
        }
        match self.findings[end..].iter().position(|&b| b != FILL) {
            Some(at) => Err(format!("changed byte {} of the buffer, which is behind the findings", end + at)),
            None => Ok(()),
        }
    }

    fn compare_work(&self, words: usize, want: &After) -> Result<(), String> {
        let inside = if want.zeroed { 0 } else { FILL_WORD };
        let wrong = |(i, &word): (usize, &u64)| word != if i < words { inside } else { FILL_WORD };
        match self.work.iter().enumerate().find(|&w| wrong(w)) {
            Some((i, word)) => Err(format!("left {word:#x} in word {i} of the {words} words lent")),
            None => Ok(()),
        }
    }

    /// The first findings in the buffer, for a message.
    fn begins_with(&self, room: usize, count: usize) -> String {
        let whole = self.findings[..room].chunks_exact(FINDING_BYTES).take(count.min(8));
        let shown: Vec<String> = whole.map(|b| Finding::decode(b).to_string()).collect();
        format!("[{}]", shown.join(", "))
    }
}

/// The main call for its time alone.
pub fn check(book: &[u8], findings: &mut [u8], work: &mut [u64]) -> Answer {
    // SAFETY: each pointer is good for its length, and the three areas are apart.
    Answer::of(unsafe { dockwrench_check(book.as_ptr(), book.len(), findings.as_mut_ptr(), findings.len(), work.as_mut_ptr(), work.len()) })
}

pub fn ancestor(book: &[u8], id: u32) -> Answer {
    // SAFETY: the pointer is good for its length.
    Answer::of(unsafe { dockwrench_ancestor(book.as_ptr(), book.len(), id) })
}

pub fn unavailable(book: &[u8], id: u32) -> Answer {
    // SAFETY: the pointer is good for its length.
    Answer::of(unsafe { dockwrench_unavailable(book.as_ptr(), book.len(), id) })
}

impl Finding {
    pub fn encode(&self) -> [u8; FINDING_BYTES] {
        let mut bytes = [self.kind; FINDING_BYTES];
        bytes[1..9].copy_from_slice(&self.subject.to_be_bytes());
        bytes[9..].copy_from_slice(&self.object.to_be_bytes());
        bytes
    }

    pub fn decode(bytes: &[u8]) -> Finding {
        let word = |at: usize| u64::from_be_bytes(bytes[at..at + 8].try_into().unwrap());
        Finding { kind: bytes[0], subject: word(1), object: word(9) }
    }
}

impl fmt::Display for Finding {
    fn fmt(&self, f: &mut fmt::Formatter<'_>) -> fmt::Result {
        write!(f, "{} {} {}", self.kind, self.subject, self.object)
    }
}
