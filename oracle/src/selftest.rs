//! Shows that a run can fail: one finding of the judge is changed, or drawn parents, the limit on parents, foreign types or
//! the offsets of free runs are read by another rule, and each time the difference has to be seen and the book made small.
use crate::books::values::{DIRENTS, LRU, SNAPSHOTS, T_SNAPSHOT, XATTRS};
use crate::books::{self, Mode};
use crate::compare::{compare_with, Counts};
use crate::expected::{Change, Expected};
use crate::layout::{limit, Asked, Book, Key, Limit, MOST_PARENTS};
use crate::library::Areas;
use crate::published::{self, once, Maps, BUCKET_BITS};
use crate::shrink;
use crate::text;
use reference::check::Problem;
use reference::{Published, Rules};

const SEED: u64 = 1;
const MOST_BOOKS: u64 = 100_000;
const KINDS: std::ops::RangeInclusive<u8> = 1..=50;
const LONG_MODES: [&[Mode]; 2] = [&[Mode::Bushes], &[Mode::Many]];
/// The kind that is changed in long books, and the keys that a difference needs which a few keys do not show.
const LONG_KIND: u8 = 45;
const NEEDED_KEYS: usize = 300;
/// No change needs a book of more keys.
const MOST_KEYS: usize = 3;
/// Longer books are told by their length.
const LONGEST_SHOWN: usize = 500;

/// Other readings of the rule for drawn parents: what is done to the keys before it is applied.
const PARENT_READINGS: [(&str, fn(&mut Vec<Key>)); 8] = [
    ("no key is read", |keys| keys.clear()),
    ("the first key wins", |keys| keys.reverse()),
    ("the longest key wins", |keys| keys.sort_by_key(|k| k.value.len())),
    ("7 bytes are enough", |keys| keys.iter_mut().filter(|k| k.value.len() == 7).for_each(|k| k.value.push(0))),
    ("8 bytes are not enough", |keys| keys.retain(|k| k.value.len() != 8)),
    ("the whole offset is the id", |keys| keys.retain(|k| k.offset <= u32::MAX.into())),
    ("any btree counts", |keys| keys.iter_mut().for_each(|k| k.btree = SNAPSHOTS)),
    ("any type counts", |keys| keys.iter_mut().for_each(|k| k.key_type = T_SNAPSHOT)),
];

/// Other readings of refusals 12 and 13, and the keys that a difference needs.
type Limits = (&'static str, Limit, usize);

const LIMIT_READINGS: [Limits; 5] = [
    ("4,096 entries are refused", |asked| limit(asked).or((asked.parents == MOST_PARENTS).then_some(13)), 0),
    ("4,097 entries are taken", |asked| limit(asked).filter(|_| asked.drawn || asked.parents > MOST_PARENTS + 1), 0),
    ("no table is too long", |asked| limit(asked).filter(|&number| number != 13), 0),
    ("13 comes before 12", |asked| limit(Asked { drawn: false, ..asked }).or(limit(asked)), 0),
    ("drawn parents are counted", |asked| limit(asked).or((asked.drawn && asked.keys > MOST_PARENTS).then_some(13)), MOST_PARENTS as usize + 1),
];

/// Another reading of the rule for types: whether one is foreign to a btree, and what becomes of its key's problems.
type Types = (&'static str, fn(u8, u8) -> bool, fn(&mut Vec<Problem>, usize, usize));

/// That 22 comes behind what the fields give, or where they gave it, is no other reading: all else that they give is
/// for types that the btree holds (`oracle every` counts it).
const TYPE_READINGS: [Types; 9] = [
    ("an empty row is no row", |btree, t| foreign(btree, t) && !row(btree).is_some_and(<[u8]>::is_empty), once),
    ("no row is an empty row", |btree, t| foreign(if row(btree).is_none() { LRU } else { btree }, t), once),
    ("xattrs hold what dirents hold", |btree, t| foreign(if btree == XATTRS { DIRENTS } else { btree }, t), once),
    ("a type of any row is held", |btree, t| foreign(btree, t) && !is_in_a_row(t), once),
    ("type 40 is not anywhere", |btree, t| foreign(btree, t) || row(btree).is_some() && t == 40, once),
    ("types have six bits", |btree, t| foreign(btree, t % 64), once),
    ("types over 63 are held", |btree, t| foreign(btree, t) && t < 64, once),
    ("kind 22 twice where the fields give it too", foreign, |_, _, _| ()),
    ("kind 22 before the device's", foreign, foremost),
];

/// Other readings of the offset of a free run.
type Offsets = (&'static str, fn(&Book, &Key) -> u64);

const OFFSET_READINGS: [Offsets; 7] = [
    ("the whole offset is read", |_, run| run.offset),
    ("57 bits of the offset are read", |_, run| run.offset % (1 << 57)),
    ("55 bits of the offset are read", |_, run| run.offset % (1 << 55)),
    ("the age is in the lowest byte", |_, run| run.offset >> 8),
    ("the subtraction is before the cut", |_, run| {
        let size = u64::from(run.size);
        run.offset.checked_sub(size).map_or(bucket(run.offset), |start| bucket(start) + size)
    }),
    ("a run past the buckets is read whole", |book, run| if book.buckets < bucket(run.offset) { run.offset } else { bucket(run.offset) }),
    ("a run of another device is read whole", |book, run| if run.inode == book.device { bucket(run.offset) } else { run.offset }),
];

fn bucket(offset: u64) -> u64 {
    offset % (1 << BUCKET_BITS)
}

fn foreign(btree: u8, key_type: u8) -> bool {
    Published::is_foreign(btree, key_type)
}

fn row(btree: u8) -> Option<&'static [u8]> {
    Published::key_types_allowed().iter().find(|(id, _)| *id == btree).map(|&(_, row)| row)
}

fn is_in_a_row(key_type: u8) -> bool {
    Published::key_types_allowed().iter().any(|(_, row)| row.contains(&key_type))
}

/// Kind 22 once, before all other problems of its key.
fn foremost(problems: &mut Vec<Problem>, first: usize, at: usize) {
    once(problems, first, at);
    problems[first..=at].rotate_right(1);
}

/// What is made wrong: the last finding of a kind, or a reading, where only books count in which it changes a finding.
#[derive(Clone, Copy)]
enum Wrong {
    Finding(Change, u8),
    Parents(&'static str, fn(&mut Vec<Key>)),
    Types(Types),
    Offsets(Offsets),
    Limits(Limits),
}

/// A wrong judge, tried on the first book of these modes where it is wrong. Only books of so many keys or more are judged wrong.
struct Case {
    modes: &'static [Mode],
    wrong: Wrong,
    keys: usize,
}

/// Makes each change in each kind, and each in long books, and each other reading, and says what was seen.
pub fn run() -> bool {
    let either = &[Mode::Mixed, Mode::Runs];
    let of_each_kind = |change| KINDS.map(move |kind| Case::of(either, Wrong::Finding(change, kind)));
    let in_long_books = |change| LONG_MODES.map(|modes| Case::of(modes, Wrong::Finding(change, LONG_KIND)));
    let dropped = Wrong::Finding(Change::Dropped, LONG_KIND);
    let with_many_keys = LONG_MODES.map(|modes| Case { keys: NEEDED_KEYS, ..Case::of(modes, dropped) });
    let of_parents = PARENT_READINGS.map(|(name, read)| Case::of(&[Mode::Drawn], Wrong::Parents(name, read)));
    let of_types = TYPE_READINGS.map(|types| Case::of(&[Mode::Mixed], Wrong::Types(types)));
    let mut cases: Vec<Case> = Change::ALL.into_iter().flat_map(of_each_kind).collect();
    cases.extend(Change::ALL.into_iter().flat_map(in_long_books).chain(with_many_keys));
    let of_offsets = OFFSET_READINGS.map(|offsets| Case::of(&[Mode::Runs], Wrong::Offsets(offsets)));
    let of_limits = LIMIT_READINGS.map(|limits| Case { keys: limits.2, ..Case::of(&[Mode::Parents], Wrong::Limits(limits)) });
    cases.extend(of_parents.into_iter().chain(of_types).chain(of_offsets).chain(of_limits));
    let unseen = cases.iter().filter(|case| !case.show()).count();
    println!("{} changes, {unseen} of them not seen", cases.len());
    unseen == 0
}

impl Case {
    /// A wrong judge of books of any number of keys.
    fn of(modes: &'static [Mode], wrong: Wrong) -> Case {
        Case { modes, wrong, keys: 0 }
    }

    /// Says what was seen; whether it was a difference that was made small.
    fn show(&self) -> bool {
        let seen = self.see();
        let said = match &seen {
            Ok(book) if book.len() <= LONGEST_SHOWN => text::hex(book),
            Ok(book) => format!("{} bytes", book.len()),
            Err(why) => why.clone(),
        };
        let modes: Vec<&str> = self.modes.iter().map(|mode| mode.name()).collect();
        let keys = if self.keys == 0 { String::new() } else { format!(" with {} keys or more", self.keys) };
        println!("{}{keys}, {}: {said}", modes.join(" and "), self.wrong.name());
        seen.is_ok()
    }

    /// The smallest book in which the difference is seen, or the first where it needs thousands of keys, each of which
    /// would be tried; or why there is none.
    fn see(&self) -> Result<Vec<u8>, String> {
        let mut all = (0..MOST_BOOKS).flat_map(|index| self.modes.iter().map(move |&mode| books::book(mode, SEED, index)));
        let first = all.find(|bytes| self.wrong(bytes).is_some()).ok_or("in no book")?;
        let mut areas = Areas::new();
        let mut differs =
            |bytes: &[u8]| self.wrong(bytes).is_some_and(|wrong| compare_with(&wrong, bytes, &[], &mut areas, &mut Counts::new()).is_err());
        if !differs(&first) {
            return Err(format!("not seen in {}", text::hex(&first)));
        }
        if self.keys > NEEDED_KEYS {
            return Ok(first);
        }
        let book = shrink::smallest(first, differs);
        match Expected::of(&book).words() > 2 * self.keys.max(MOST_KEYS) {
            true => Err(format!("not made small: {}", text::hex(&book))),
            false => Ok(book),
        }
    }

    /// The wrong answers to a book, where they are wrong.
    fn wrong(&self, bytes: &[u8]) -> Option<Expected> {
        let right = Expected::of(bytes);
        if right.words() < 2 * self.keys {
            return None;
        }
        self.wrong.apply(right, bytes)
    }
}

impl Wrong {
    fn name(self) -> String {
        match self {
            Wrong::Finding(change, kind) => format!("{} of kind {kind}", change.name()),
            Wrong::Parents(name, _) | Wrong::Types((name, ..)) | Wrong::Offsets((name, _)) | Wrong::Limits((name, ..)) => name.to_string(),
        }
    }

    /// The answers to a book, made wrong where that can be done.
    fn apply(self, mut right: Expected, bytes: &[u8]) -> Option<Expected> {
        let wrong = match self {
            Wrong::Finding(change, kind) => return right.change(change, kind).then_some(right),
            Wrong::Parents(_, read) => {
                let maps = |book: &Book| {
                    let mut drawn = book.clone();
                    read(&mut drawn.keys);
                    Maps::over(book, published::parents(&drawn), published::runs(book))
                };
                Expected::by(bytes, maps, Maps::judge)
            }
            Wrong::Types((_, is_foreign, settle)) => {
                let judge = |maps: &Maps| maps.judge_by(is_foreign, settle);
                Expected::by(bytes, Maps::of, judge)
            }
            Wrong::Offsets((_, read)) => {
                let maps = |book: &Book| Maps::over(book, published::parents(book), published::runs_by(book, read));
                Expected::by(bytes, maps, Maps::judge)
            }
            Wrong::Limits((_, read, _)) => {
                let wrong = Expected::within(bytes, read);
                let answer = |expected: &Expected| expected.check(usize::MAX, usize::MAX).answer;
                return (answer(&wrong) != answer(&right)).then_some(wrong);
            }
        };
        (wrong.findings() != right.findings()).then_some(wrong)
    }
}
