//! Writes the list of books and answers that the program `replay` runs: its standard input, and what it has to write.
use crate::books::{self, Mode};
use crate::compare::{lengths, Counts};
use crate::expected::Expected;
use crate::library::Answer;
use crate::published::Finding;
use crate::states;
use crate::text::hex;
use std::fmt::Write;
use std::fs;
use std::io;
use std::path::Path;

const SEED: u64 = 2026;
/// How many books of each mode, and the most bytes that one may have. A chain of 1,023 links by keys is too long for a line of `replay`.
const PARTS: [(Mode, usize, usize); 10] = [
    (Mode::Mixed, 1200, 360),
    (Mode::Forest, 400, 500),
    (Mode::Chains, 300, 400),
    (Mode::Chains, 8, 12_000),
    (Mode::Runs, 500, 300),
    (Mode::Damaged, 500, 300),
    (Mode::Short, 100, 100),
    (Mode::Drawn, 500, 600),
    (Mode::DrawnForest, 200, 500),
    (Mode::DrawnChains, 200, 900),
];
/// What `replay` can lend.
const MOST_ROOM: usize = 65_535;
const MOST_WORDS: usize = 4_678;

/// Writes `stdin` and `stdout` into a folder. Says which kinds and answers are in no book; a book of more than a mebibyte, which is refused with 1,
/// is too long for the list.
pub fn write(folder: &Path) -> io::Result<Vec<String>> {
    let (mut input, mut output, mut counts) = (heading(), heading(), Counts::new());
    for (mode, count, longest) in PARTS {
        let title = format!("# {count} {} books of up to {longest} bytes\n", mode.name());
        input += &title;
        output += &title;
        // the long chains are those that the part before had to leave out
        let is_wanted = |bytes: &Vec<u8>| bytes.len() <= longest && (longest <= 1_000 || bytes.len() > 1_000);
        let wanted = (0..).map(|index| (index, books::book(mode, SEED, index))).filter(|(_, bytes)| is_wanted(bytes)).take(count);
        for (index, bytes) in wanted {
            line(index, &bytes, &mut counts, &mut input, &mut output);
        }
    }
    rarest(&mut counts, &mut input, &mut output);
    fs::write(folder.join("stdin"), input)?;
    fs::write(folder.join("stdout"), output)?;
    Ok(counts.missing().into_iter().filter(|m| m != "answer 1").collect())
}

/// Mixed books of another seed for the kinds and states that no book has yet.
fn rarest(counts: &mut Counts, input: &mut String, output: &mut String) {
    let title = "# mixed books for kinds, and states that kinds name, that are in none of the books above\n";
    input.push_str(title);
    output.push_str(title);
    for index in 0..100_000 {
        let bytes = books::book(Mode::Mixed, SEED + 1, index);
        let is_new = |f: &Finding| counts.kinds[usize::from(f.kind)] == 0 || states::named(f).is_some_and(|state| counts.states[state] == 0);
        if Expected::of(&bytes).findings().iter().any(is_new) {
            line(index, &bytes, counts, input, output);
        }
    }
}

fn heading() -> String {
    "\
# Made by `oracle list`: books from seed 2026, with the answers that documents 01 and 02 state, the published Rust rules being the judge of the findings.
# A line of books is room, words and asked id, 8 digits each, and the book, in hexadecimal. A line of answers is number, place and count of the
# main call; number, root and links of the ancestor question; number and yes of the availability question; then the findings in the buffer.
"
    .to_string()
}

/// One book with its answers. The lengths lent change from book to book: exact, longer, a byte short, half, a word short.
fn line(index: u64, bytes: &[u8], counts: &mut Counts, input: &mut String, output: &mut String) {
    let expected = Expected::of(bytes);
    let lent = lengths(&expected);
    let (room, words) = lent[index as usize % lent.len()];
    assert!(room <= MOST_ROOM && words <= MOST_WORDS, "replay can lend what the list asks for");
    let id = books::asked(bytes, SEED, index)[0];
    let (after, ancestor, availability) = (expected.check(room, words), expected.ancestor(id), expected.unavailable(id));
    counts.count(&expected);
    counts.numbers[usize::from(after.answer.number)] += 1;
    counts.numbers[usize::from(ancestor.number)] += 1;
    writeln!(input, "{room:08x}{words:08x}{id:08x}{}", hex(bytes)).unwrap();
    write!(output, "{} | {} | {}", after.answer, root(ancestor), yes(availability)).unwrap();
    after.written.iter().for_each(|finding| write!(output, " | {finding}").unwrap());
    output.push('\n');
}

/// Number, root and links; or number, place and 0 of a refusal.
fn root(answer: Answer) -> String {
    match answer.number {
        0 => format!("0 {} {}", answer.count, answer.place),
        number => format!("{number} {} 0", answer.place),
    }
}

/// Number and yes; or number and place of a refusal.
fn yes(answer: Answer) -> String {
    match answer.number {
        0 => format!("0 {}", answer.count),
        number => format!("{number} {}", answer.place),
    }
}
