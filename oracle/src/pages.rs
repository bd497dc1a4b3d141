//! Books that stand in a page of text, between a line "```book" and a line "```": lines of hexadecimal digits, then what is found: `finds nothing`, or a
//! line `finds KIND SUBJECT OBJECT` for each finding.
use crate::text;

pub struct Example {
    /// The line of the page on which the book begins.
    pub line: usize,
    pub book: Vec<u8>,
    pub finds: Vec<String>,
}

/// The books of a page, or the line that can't be read.
pub fn read(page: &str) -> Result<Vec<Example>, usize> {
    let mut all: Vec<Example> = Vec::new();
    let mut is_inside = false;
    for (i, line) in page.lines().enumerate() {
        match (is_inside, line.trim()) {
            (false, "```book") => {
                is_inside = true;
                all.push(Example { line: i + 2, book: Vec::new(), finds: Vec::new() });
            }
            (false, _) => {}
            (true, "```") => is_inside = false,
            (true, line) => {
                let example = all.last_mut().ok_or(i + 1)?;
                match line.strip_prefix("finds ") {
                    Some(found) => example.finds.push(found.to_string()),
                    None => example.book.extend(text::bytes(line).ok_or(i + 1)?),
                }
            }
        }
    }
    Ok(all)
}
