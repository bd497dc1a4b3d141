//! Holds Dockwrench against the published Rust program. README.md beside this folder says how to run it.
mod books;
mod compare;
mod every;
mod expected;
mod large;
mod layout;
mod library;
mod list;
mod pages;
mod published;
mod selftest;
mod shrink;
mod speed;
mod states;
mod text;
mod texts;

use books::Mode;
use compare::Counts;
use std::process::ExitCode;
use std::time::Duration;

const USAGE: &str = "\
usage: oracle run [MODE|all] [BOOKS] [SEED]   compares so many books of each mode, in a run over all fewer long ones
       oracle judge HEX                       writes what both say of one book
       oracle every                           compares accounting values of every length, keys of every btree and type
       oracle large                           compares the books of docs/SPEED.md, in four orders and forms
       oracle books PAGE                      holds both to the books of a page, as docs/DIFFERENCES.md
       oracle list FOLDER                     writes the list that the program `replay` runs: stdin and stdout
       oracle selftest                        shows that a change of a finding of each kind is seen, with the smallest book that shows it
       oracle speed [NAME]                    times both on the books of docs/SPEED.md, or on those with NAME in their name
modes: mixed, forest, chains, runs, damaged, short, drawn, drawn_forest, drawn_chains, and those with long books: bushes, many";

fn main() -> ExitCode {
    let args: Vec<String> = std::env::args().skip(1).collect();
    let args: Vec<&str> = args.iter().map(String::as_str).collect();
    let is_good = match args[..] {
        ["run", ref rest @ ..] => run(rest),
        ["every"] => Some(every::run()),
        ["large"] => Some(large::run()),
        ["judge", hex] => judge(hex),
        ["books", page] => books(page),
        ["list", folder] => list(folder),
        ["selftest"] => Some(selftest::run()),
        ["speed"] => speed(""),
        ["speed", name] => speed(name),
        _ => None,
    };
    match is_good {
        Some(true) => ExitCode::SUCCESS,
        Some(false) => ExitCode::FAILURE,
        None => {
            eprintln!("{USAGE}");
            ExitCode::from(2)
        }
    }
}

/// Compares books of one mode or of all. A run over all modes has its share of long books, and fails also where a kind, a
/// state that a kind names or an answer is never reached.
fn run(args: &[&str]) -> Option<bool> {
    let mode = args.first().copied().unwrap_or("all");
    let modes = if mode == "all" { Mode::ALL.to_vec() } else { vec![Mode::from_name(mode)?] };
    let number = |at: usize, or: u64| args.get(at).map_or(Some(or), |n| n.parse().ok());
    let (books, seed) = (number(1, 10_000)?, number(2, 1)?);
    let threads = std::thread::available_parallelism().map_or(1, |n| n.get() as u64);
    let mut total = Counts::new();
    for &mode in &modes {
        let books = if modes.len() == 1 { books } else { mode.share(books) };
        match compare::run(mode, seed, 0..books, threads) {
            Ok(counts) => {
                println!("{}: {} books, {} of them accepted, no difference", mode.name(), counts.books, counts.accepted);
                total.add(&counts);
            }
            Err(d) => {
                println!("{}: book {} of seed {seed} differs: {}", d.mode.name(), d.index, d.what);
                println!("smallest book: {}", text::hex(&d.book));
                return Some(false);
            }
        }
    }
    show(&total);
    let missing = total.missing();
    if !missing.is_empty() {
        println!("never reached: {}", missing.join(", "));
    }
    Some(missing.is_empty() || modes.len() == 1)
}

fn show(counts: &Counts) {
    println!("books in which each kind was found:");
    for (i, line) in counts.kinds[1..].chunks(10).enumerate() {
        let line: Vec<String> = line.iter().enumerate().map(|(k, n)| format!("{}: {n}", 10 * i + k + 1)).collect();
        println!("  {}", line.join("  "));
    }
    println!("books in which each state was named, by kind 23 or 26:");
    let line: Vec<String> = states::NAMES.iter().zip(counts.states).map(|((_, name), n)| format!("{name}: {n}")).collect();
    println!("  {}", line.join("  "));
    println!("answers of the main call and of the ancestor question with each number:");
    let line: Vec<String> = counts.numbers.iter().enumerate().map(|(k, n)| format!("{k}: {n}")).collect();
    println!("  {}", line.join("  "));
}

/// What the published rules and Dockwrench say of one book.
fn judge(hex: &str) -> Option<bool> {
    let bytes = text::bytes(hex)?;
    let expected = expected::Expected::of(&bytes);
    let after = expected.check(usize::MAX, usize::MAX);
    println!("answer {} (number, place, count)", after.answer);
    after.written.iter().for_each(|finding| println!("{finding}"));
    match compare::compare(&bytes, &[0, 1, 2, 7], &mut library::Areas::new(), &mut Counts::new()) {
        Ok(()) => println!("Dockwrench says the same"),
        Err(ref what) => println!("{what}"),
    }
    Some(true)
}

/// Holds both programs to the findings that a page gives for its books.
fn books(path: &str) -> Option<bool> {
    let page = std::fs::read_to_string(path).map_err(|e| println!("{path}: {e}")).ok()?;
    let examples = pages::read(&page).map_err(|line| println!("{path}:{line}: not a line of a book")).ok()?;
    let mut wrong = 0;
    for example in &examples {
        let expected = expected::Expected::of(&example.book);
        let mut found: Vec<String> = expected.findings().iter().map(|f| f.to_string()).collect();
        if found.is_empty() {
            found.push("nothing".to_string());
        }
        let same = compare::compare(&example.book, &[], &mut library::Areas::new(), &mut Counts::new());
        if found != example.finds || same.is_err() {
            println!(
                "{path}:{}: the Rust finds {}; {}",
                example.line,
                found.join(", "),
                same.err().unwrap_or("Dockwrench says the same".to_string())
            );
            wrong += 1;
        }
    }
    println!("{path}: {} books, {wrong} of them wrong", examples.len());
    Some(wrong == 0 && !examples.is_empty())
}

/// Writes the list for `replay`. Fails where a kind or an answer is in no book of it.
fn list(folder: &str) -> Option<bool> {
    match list::write(std::path::Path::new(folder)) {
        Ok(missing) => {
            println!("not in the list: {}", if missing.is_empty() { "nothing".to_string() } else { missing.join(", ") });
            Some(missing.is_empty())
        }
        Err(e) => {
            println!("{folder}: {e}");
            Some(false)
        }
    }
}

/// The tables of docs/SPEED.md. Fails where Dockwrench takes more than half of the published rules' time.
fn speed(named: &str) -> Option<bool> {
    table("book");
    let rows = speed::rows().into_iter().filter(|(name, _)| name.contains(named));
    let is_ahead = rows.fold(true, |is_ahead, (name, book)| row(name, &book) && is_ahead);
    let tables = [
        ("long tables", speed::tables()),
        ("drawn parents", speed::drawn()),
        ("key types", speed::types()),
        ("chains made to be slow", speed::slow()),
    ];
    for (title, books) in tables {
        println!();
        table(title);
        for (name, book) in books.into_iter().filter(|(name, _)| name.contains(named)) {
            row(name, &book);
        }
    }
    println!();
    println!("| ancestor question, drawn | bytes | links | Dockwrench, µs | map and walk, µs | ratio | one pass, µs |");
    println!("|---|---|---|---|---|---|---|");
    for (name, book, id) in speed::questions().into_iter().filter(|(name, ..)| name.contains(named)) {
        question(name, &book, id);
    }
    if named.is_empty() {
        println!();
        table("mixed book, KiB");
        for kib in [1, 4, 16, 64, 256, 1_024] {
            row(&kib.to_string(), &speed::mixed(1_024 * kib));
        }
    }
    Some(is_ahead)
}

fn table(first: &str) {
    println!("| {first} | bytes | findings | Dockwrench, µs | Rust rules, µs | ratio | Rust with maps, µs | one pass, µs |");
    println!("|---|---|---|---|---|---|---|---|");
}

fn micros(time: Duration) -> f64 {
    time.as_secs_f64() * 1e6
}

fn shown(time: Duration) -> String {
    let digits = if micros(time) < 1.0 { 3 } else { 2 * usize::from(micros(time) < 10.0) };
    format!("{:.digits$}", micros(time))
}

fn question(name: &str, book: &layout::Book, id: u32) {
    let t = speed::question_times(book, id);
    let (bytes, ratio) = (book.encode().len(), micros(t.ours) / micros(t.map_and_walk));
    println!("| {name} | {bytes} | {} | {} | {} | {ratio:.2} | {} |", t.links, shown(t.ours), shown(t.map_and_walk), shown(t.pass));
}

fn row(name: &str, book: &layout::Book) -> bool {
    let t = speed::times(book);
    let ratio = micros(t.ours) / micros(t.rust);
    let (bytes, ours, rust, with_maps, pass) = (book.encode().len(), shown(t.ours), shown(t.rust), shown(t.with_maps), shown(t.pass));
    println!("| {name} | {bytes} | {} | {ours} | {rust} | {ratio:.2} | {with_maps} | {pass} |", t.findings);
    ratio <= 0.5
}
