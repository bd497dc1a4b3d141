//! Times both programs on the same books in the same run: Dockwrench whole, from bytes to findings; the published rules alone, over maps made before.
use crate::books::values::*;
use crate::books::{self, Mode};
use crate::layout::{Book, Key, HEADER_BYTES, KEY_HEAD_BYTES, LONGEST_BOOK, MOST_PARENTS};
use crate::library;
use crate::published::{self, Maps, Parents, BUCKET_BITS};
use std::hint::black_box;
use std::time::{Duration, Instant};

/// Before 1.39, where a state is not asked for.
const VERSION: u16 = 1062;

/// Lengths from which on a snapshot has a parent, has a tree, and is judged.
const LENGTHS: [usize; 3] = [8, 24, 40];

/// How long each program is run on a book in a round, and the rounds; the shortest time of all rounds counts. Of a book
/// on which they take so long in all there are fewer.
const ROUND: Duration = Duration::from_millis(60);
const ROUNDS: usize = 7;
const FEWEST_ROUNDS: usize = 3;
const LONG: Duration = Duration::from_secs(5);

/// Calls that take less are timed together.
const BATCH: Duration = Duration::from_micros(20);

/// The books of docs/SPEED.md, each with its name.
pub fn rows() -> Vec<(&'static str, Book)> {
    vec![
        ("37,000 free runs in no order", free_runs()),
        ("37,000 free runs of all ages in no order", aged(free_runs())),
        ("4 chains of 1,000 snapshots", chains(4)),
        ("13 chains of 1,000 snapshots, drawn", without_table(chains(13))),
        ("15,000 keys at the foot of 1,024 links", foot()),
        ("a mixed book of 1 MiB", mixed(LONGEST_BOOK)),
        ("7,000 deleted subvolumes", deleted()),
        ("20,000 subvolume children", children()),
        ("4,096 parents with one key", parents()),
        ("a smallest book (one key)", Book { keys: vec![key(FREESPACE, T_SET, 0, 0, Vec::new())], ..empty() }),
    ]
}

/// Books with long alloc and gens tables, which a walk or a search for each key would make slow; nothing is to find in them.
pub fn tables() -> Vec<(&'static str, Book)> {
    vec![
        ("18,700 runs over the same 52,000 alloc entries", runs_over_alloc()),
        ("25,000 runs of a bucket, used buckets between", spaced_runs(25_000, 1)),
        ("10,000 runs of three buckets, used buckets between", spaced_runs(10_000, 3)),
        ("200 bucket_gens keys, 51,200 generations", generations(200, 1)),
        ("1,800 bucket_gens keys, generations nine buckets apart", generations(1_800, 9)),
    ]
}

/// Snapshots in no order, by a table and drawn, and drawn books with many keys of an id. Values of less than 24 bytes are each a finding.
pub fn drawn() -> Vec<(&'static str, Book)> {
    vec![
        ("4 chains of 1,000 snapshots in no order", in_no_order(chains(4))),
        ("4 chains of 1,000 snapshots in no order, drawn", in_no_order(without_table(chains(4)))),
        ("13 chains of 1,000 snapshots in no order, drawn", in_no_order(without_table(chains(13)))),
        ("6 chains of 1,000, each id with 8, 24 and 40 bytes, in no order, drawn", in_no_order(in_lengths(without_table(chains(6))))),
        ("15,000 keys of one id, 8 bytes each, drawn", one_id(&[8])),
        ("15,000 keys of one id, 8, 24 and 40 bytes in turn, drawn", one_id(&LENGTHS)),
    ]
}

/// Chains made to be slow, ids far from each other and keys in no order: with a table as long as it may be, and each
/// snapshot three times, and drawn from as many keys.
pub fn slow() -> Vec<(&'static str, Book)> {
    let (most, deep) = (u32::from(MOST_PARENTS), 1_000);
    let far = |links: u32| move |place: u32| place.checked_sub(if place < links { 1 } else { 100 - place % 100 + place - links });
    vec![
        ("each snapshot its own parent", tangle(most, 3, Some)),
        ("each snapshot its own parent, drawn", without_table(tangle(3 * most, 1, Some))),
        ("rings of two", tangle(most, 3, |place| Some(place ^ 1))),
        ("rings of two, drawn", without_table(tangle(3 * most, 1, |place| Some(place ^ 1)))),
        ("one ring of all", tangle(most, 3, |place| Some((place + 1) % most))),
        ("one ring of all, drawn", without_table(tangle(3 * most, 1, |place| Some((place + 1) % (3 * most))))),
        ("all below 100 snapshots at 900 links and more", tangle(most, 3, far(deep))),
        ("all below 100 snapshots at 900 links and more, drawn", without_table(tangle(3 * most, 1, far(deep)))),
    ]
}

/// Keys of types that their btree holds, of one that it does not, of all btrees and types in turn, and of a btree that
/// the table of types does not have.
pub fn types() -> Vec<(&'static str, Book)> {
    vec![
        ("37,000 extents", typed(|_| (EXTENTS, T_EXTENT))),
        ("37,000 keys of type 40 in the damage btree", typed(|_| (DAMAGE, 40))),
        ("37,000 snapshots in the extents btree", typed(|_| (EXTENTS, T_SNAPSHOT))),
        ("37,000 keys of 29 btrees and 64 types in turn", typed(|i| ((i % 29) as u8, (i * 7 % 64) as u8))),
        ("37,000 extents in btree 200", typed(|_| (200, T_EXTENT))),
    ]
}

/// Drawn books of a mebibyte for the ancestor question, with the id that has 1,024 links above it.
pub fn questions() -> Vec<(&'static str, Book, u32)> {
    let (in_order, foot) = upward_chains();
    vec![("1,024 links in rising order of id", in_order.clone(), foot), ("1,024 links in no order", in_no_order(in_order), foot)]
}

/// Brings keys into no order. 7,919 is a prime: all places are reached, but where the count is a multiple of it.
pub fn mix(keys: &mut Vec<Key>) {
    let count = keys.len();
    *keys = (0..count).map(|i| keys[i * 7_919 % count].clone()).collect();
}

fn in_no_order(mut book: Book) -> Book {
    mix(&mut book.keys);
    book
}

/// The same book, its parents drawn.
fn without_table(book: Book) -> Book {
    Book { drawn: true, parents: Vec::new(), ..book }
}

/// Each key of a book with its value cut to each of the lengths that it has.
fn in_lengths(book: Book) -> Book {
    let cuts = |key: Key| LENGTHS.into_iter().filter_map(move |length| Some(Key { value: key.value.get(..length)?.to_vec(), ..key.clone() }));
    Book { keys: book.keys.into_iter().flat_map(cuts).collect(), ..book }
}

fn empty() -> Book {
    Book { mark: true, version: VERSION, ..Book::default() }
}

/// Runs that all hold all buckets, each of which has an alloc entry without a type.
fn runs_over_alloc() -> Book {
    let buckets = 52_000;
    let run = Key { size: buckets, ..key(FREESPACE, T_SET, 0, u64::from(buckets), Vec::new()) };
    let alloc = (0..u64::from(buckets)).map(|bucket| (bucket, None)).collect();
    Book { buckets: u64::from(buckets), alloc, keys: vec![run; 18_700], ..empty() }
}

/// So many runs of `size` buckets, each followed by a bucket in use, the only ones with an alloc entry.
fn spaced_runs(count: u64, size: u32) -> Book {
    let step = u64::from(size) + 1;
    let run = |i: u64| Key { size, ..key(FREESPACE, T_SET, 0, step * i + u64::from(size), Vec::new()) };
    let alloc = (0..count).map(|i| (step * i + u64::from(size), Some(1))).collect();
    Book { buckets: step * count, alloc, keys: (0..count).map(run).collect(), ..empty() }
}

/// So many bucket_gens keys, and a gens table that agrees with them and has one in every `apart` buckets.
fn generations(count: u64, apart: u64) -> Book {
    let generation = |bucket: u64| if bucket % apart == 0 { (bucket % 255) as u8 + 1 } else { 0 };
    let value = |offset: u64| (0..256).map(|i| generation(256 * offset + i)).collect();
    let keys = (0..count).map(|offset| key(BUCKET_GENS, T_BUCKET_GENS, 0, offset, value(offset))).collect();
    let gens = (0..256 * count).step_by(apart as usize).map(|bucket| (bucket, generation(bucket))).collect();
    Book { gens, keys, ..empty() }
}

/// Runs of four buckets each that hold all buckets, so that there is nothing to find.
fn free_runs() -> Book {
    let count = 37_000;
    let run = |i: u64| Key { size: 4, ..key(FREESPACE, T_SET, 0, 4 * (i * 7_919 % count + 1), Vec::new()) };
    Book { buckets: 4 * count, keys: (0..count).map(run).collect(), ..empty() }
}

/// The same book, its keys of ages 0 to 255 in turn.
fn aged(mut book: Book) -> Book {
    book.keys.iter_mut().zip((0..=255).cycle()).for_each(|(key, age)| key.offset |= age << BUCKET_BITS);
    book
}

/// Keys without a value, each of the btree and type that its place gives.
fn typed(pair: fn(u64) -> (u8, u8)) -> Book {
    let make = |i: u64| {
        let (btree, key_type) = pair(i);
        key(btree, key_type, 0, i, Vec::new())
    };
    Book { keys: (0..37_000).map(make).collect(), ..empty() }
}

/// A sound snapshot at `depth` of the chain of ids from `root` on.
fn snapshot(root: u32, depth: u32, length: u32, tree: u32) -> Key {
    let id = root + depth;
    let child = if depth + 1 < length { id + 1 } else { 0 };
    let (parent, skip) = if depth == 0 { (0, 0) } else { (id - 1, root) };
    let words = Snapshot { parent, children: [child, 0], tree, depth, skip: [skip; 3], ..Snapshot::default() };
    key(SNAPSHOTS, T_SNAPSHOT, 0, u64::from(id), words.value(40))
}

fn chains(trees: u32) -> Book {
    let (mut book, length) = (empty(), 1_000);
    for tree in 1..=trees {
        let root = 1 + (tree - 1) * length;
        book.keys.push(key(TREES, T_TREE, 0, u64::from(tree), tree_value(1, root, 8)));
        for depth in 0..length {
            book.parents.push((root + depth, if depth == 0 { 0 } else { root + depth - 1 }));
            book.keys.push(snapshot(root, depth, length, tree));
        }
    }
    // all trees name subvolume 1, whose snapshot no tree has
    book.subvolumes.push((1, u32::MAX));
    book
}

/// So many snapshots, each so many times, with the parents that a rule gives their places. The root, if there is one, is at
/// place 0; skip words name the parent.
fn tangle(count: u32, times: usize, above: impl Fn(u32) -> Option<u32>) -> Book {
    // a multiplication by an odd number gives each place an id of its own
    let id = |place: u32| (place + 1).wrapping_mul(2_654_435_761);
    let parent = |place: u32| above(place).map_or(0, id);
    let links = |place: u32| std::iter::successors(above(place), |&at| above(at)).take(1_025).count() as u32;
    let snapshot = |place: u32| {
        let words = Snapshot { parent: parent(place), tree: 1, depth: links(place), skip: [parent(place); 3], ..Snapshot::default() };
        key(SNAPSHOTS, T_SNAPSHOT, 0, u64::from(id(place)), words.value(40))
    };
    let mut book = Book { subvolumes: vec![(1, u32::MAX)], ..empty() };
    book.parents = (0..count).map(|place| (id(place), parent(place))).collect();
    sort_tables(&mut book);
    let keys: Vec<Key> = (0..count).map(snapshot).collect();
    book.keys = std::iter::repeat_n(keys, times).flatten().collect();
    book.keys.push(key(TREES, T_TREE, 0, 1, tree_value(1, id(0), 8)));
    in_no_order(book)
}

/// 28 chains of 1,024 links whose ids rise towards the root, with values of 8 bytes, and the foot of the last.
fn upward_chains() -> (Book, u32) {
    let (chains, snapshots) = (28, 1_025);
    let link = |id: u32| {
        let parent = if id % snapshots == 0 { 0 } else { id + 1 };
        key(SNAPSHOTS, T_SNAPSHOT, 0, u64::from(id), Snapshot { parent, ..Snapshot::default() }.value(8))
    };
    let keys = (1..=chains * snapshots).map(link).collect();
    (Book { drawn: true, keys, ..empty() }, (chains - 1) * snapshots + 1)
}

/// 15,000 keys of a sound root, with values of these lengths in turn.
fn one_id(lengths: &[usize]) -> Book {
    let mut book = Book { drawn: true, subvolumes: vec![(1, u32::MAX)], ..empty() };
    let root = snapshot(1, 0, 1, 1);
    book.keys = lengths.iter().cycle().take(15_000).map(|&length| Key { value: root.value[..length].to_vec(), ..root.clone() }).collect();
    book.keys.push(key(TREES, T_TREE, 0, 1, tree_value(1, 1, 8)));
    book
}

fn foot() -> Book {
    let links = 1_024;
    let mut book = empty();
    book.parents = (0..=links).map(|depth| (1 + depth, depth)).collect();
    book.subvolumes.push((1, u32::MAX));
    book.keys = vec![snapshot(1, links, links + 1, 1); 15_000];
    book.keys.push(snapshot(1, 0, links + 1, 1));
    book.keys.push(key(TREES, T_TREE, 0, 1, tree_value(1, 1, 8)));
    book
}

/// As many keys of mixed books as go into so many bytes, with the tables of one in every hundred of them.
pub fn mixed(bytes: usize) -> Book {
    let mut book = empty();
    book.device = 1;
    let mut left = bytes - HEADER_BYTES;
    for index in 0.. {
        let Ok(part) = Book::decode(&books::book(Mode::Mixed, 5, index)) else { continue };
        if index % 100 == 0 {
            let tables = 8 * part.parents.len() + 8 * part.subvolumes.len() + 9 * part.gens.len() + 10 * part.alloc.len();
            if tables < left {
                left -= tables;
                join(&mut book, part.clone());
            }
        }
        for mut key in part.keys {
            // ids of its own for each part
            key.offset = if key.offset < 1 << 31 { key.offset + 8 * index } else { key.offset };
            let size = KEY_HEAD_BYTES + key.value.len();
            if size > left {
                sort_tables(&mut book);
                return book;
            }
            left -= size;
            book.keys.push(key);
        }
    }
    book
}

fn join(book: &mut Book, part: Book) {
    book.parents.extend(part.parents);
    book.subvolumes.extend(part.subvolumes);
    book.gens.extend(part.gens);
    book.alloc.extend(part.alloc);
}

/// Deleted subvolumes, and 6,000 live snapshots that name others, so that there is nothing to find.
fn deleted() -> Book {
    let [_, _, state] = SUBVOLUME_STATES;
    let deleted = Subvolume { state, ..Subvolume::default() };
    let subvolume = |id: u64| key(SUBVOLUMES, T_SUBVOLUME, 0, id, deleted.value(44));
    let live = |id: u32| {
        let words = Snapshot { flags: 2, subvolume: 100_000 + id, state: SNAPSHOT_STATES[0], ..Snapshot::default() };
        key(SNAPSHOTS, T_SNAPSHOT, 0, u64::from(id), words.value(60))
    };
    let mut keys: Vec<Key> = (2..7_002).map(subvolume).collect();
    keys.extend((1..=6_000).map(live));
    Book { mark: false, keys, ..empty() }
}

/// 20,000 entries for 9,000 subvolumes, so that some are there twice; there is nothing to find. Both btrees are in order.
fn children() -> Book {
    let parent = |child: u64| child % 97 + 1;
    let subvolume = |child: u64| {
        let words = Subvolume { snapshot: child as u32, parent: parent(child) as u32, ..Subvolume::default() };
        key(SUBVOLUMES, T_SUBVOLUME, 0, child, words.value(24))
    };
    let entry = |i: u64| {
        let child = 1 + i % 9_000;
        key(CHILDREN, T_SET, parent(child), child, Vec::new())
    };
    let mut entries: Vec<Key> = (0..20_000).map(entry).collect();
    entries.sort_by_key(|e| (e.inode, e.offset));
    let keys = (1..=9_000).map(subvolume).chain(entries).collect();
    Book { mark: false, keys, ..empty() }
}

/// A parents table as long as it may be, of one chain, and the snapshot at its foot, which has no root within 1,024 links.
fn parents() -> Book {
    let count = u32::from(MOST_PARENTS);
    let mut book = empty();
    book.parents = (1..=count).map(|id| (id, id - 1)).collect();
    book.keys.push(key(SNAPSHOTS, T_SNAPSHOT, 0, u64::from(count), vec![0; 40]));
    book
}

/// The shortest times on a book: Dockwrench whole, the published rules alone, the same with their maps made from the book, and one pass over
/// the bytes. Also how many findings there are.
pub struct Times {
    pub ours: Duration,
    pub rust: Duration,
    pub with_maps: Duration,
    pub pass: Duration,
    pub findings: usize,
}

pub fn times(book: &Book) -> Times {
    let bytes = book.encode();
    let maps = Maps::of(book);
    let findings = maps.judge().count();
    let mut buffer = vec![0; findings * library::FINDING_BYTES];
    let mut work = vec![0; 2 * book.keys.len()];
    let answer = library::check(&bytes, &mut buffer, &mut work);
    assert_eq!((answer.number, answer.count as usize), (0, findings), "both find the same number");
    let mut best = [Duration::MAX; 4];
    let begin = Instant::now();
    for done in 0..ROUNDS {
        if done >= FEWEST_ROUNDS && begin.elapsed() > LONG {
            break;
        }
        best[0] = best[0].min(round(|| library::check(black_box(&bytes), &mut buffer, &mut work)));
        best[1] = best[1].min(round(|| black_box(&maps).judge()));
        best[2] = best[2].min(round(|| Maps::of(black_box(book)).judge()));
        best[3] = best[3].min(round(|| pass(black_box(&bytes))));
    }
    Times { ours: best[0], rust: best[1], with_maps: best[2], pass: best[3], findings }
}

/// The shortest times of the ancestor question: Dockwrench whole; the map made from the keys and followed; one pass over the bytes. The published
/// program has no such question: it makes the same map of parents from its snapshots, and follows it inside `snapshot_links` alone. So both are done
/// here, as the oracle reads the rule.
pub struct QuestionTimes {
    pub ours: Duration,
    pub map_and_walk: Duration,
    pub pass: Duration,
    pub links: u32,
}

pub fn question_times(book: &Book, id: u32) -> QuestionTimes {
    let bytes = book.encode();
    let answer = library::ancestor(&bytes, id);
    assert_eq!((answer.number, Some((answer.count, answer.place))), (0, walk(&published::parents(book), id)), "both find the same root");
    let mut best = [Duration::MAX; 3];
    for _ in 0..ROUNDS {
        best[0] = best[0].min(round(|| library::ancestor(black_box(&bytes), id)));
        best[1] = best[1].min(round(|| walk(&published::parents(black_box(book)), id)));
        best[2] = best[2].min(round(|| pass(black_box(&bytes))));
    }
    QuestionTimes { ours: best[0], map_and_walk: best[1], pass: best[2], links: answer.place }
}

/// The root above an id within 1,024 links, and the links.
fn walk(parents: &Parents, id: u32) -> Option<(u32, u32)> {
    let mut at = id;
    for links in 0..=1_024 {
        match *parents.get(&at)? {
            0 => return Some((at, links)),
            parent => at = parent,
        }
    }
    None
}

/// One pass over the bytes, one at a time: a sum in which each step needs the one before.
fn pass(bytes: &[u8]) -> u64 {
    bytes.iter().fold(0u64, |sum, &b| sum.rotate_left(5) ^ u64::from(b))
}

/// The shortest time of one call in a round. Short calls are timed together, so many that the clock is read seldom.
fn round<T>(mut call: impl FnMut() -> T) -> Duration {
    let (begin, mut best, mut calls) = (Instant::now(), Duration::MAX, 1);
    while begin.elapsed() < ROUND || best == Duration::MAX {
        let start = Instant::now();
        for _ in 0..calls {
            black_box(call());
        }
        let batch = start.elapsed();
        best = best.min(batch / calls);
        if batch < BATCH {
            calls *= 2;
        }
    }
    best
}
