//! What must hold of our own reader and writer, whatever the file.

use crate::claims::Outcome;
use crate::drawn_files::File;
use crate::graph::Rows;
use crate::sheet::{Sheet, LINE_END};
use crate::waits;

/// The first law that is broken, in words.
pub fn broken(file: &File, outcome: &Outcome) -> Option<&'static str> {
    if !reads_back(&file.rows) {
        return Some("the drawn graph doesn't read back as it was written");
    }
    match outcome {
        Outcome::TooLong => None,
        Outcome::BadLine(_) => file.is_good.then_some("a line of a good form is refused"),
        Outcome::Read(rows, _) => broken_by_read(file, rows),
    }
}

fn broken_by_read(file: &File, rows: &Rows) -> Option<&'static str> {
    let written = Sheet::of(rows).text();
    let faults = [
        (
            !reads_back(rows),
            "the graph doesn't read back as it was written",
        ),
        (
            file.is_good && !are_same(rows, &file.rows),
            "a good form is read as another graph",
        ),
        (
            is_plain(&file.bytes) != (written.as_bytes() == file.bytes),
            "a plain file isn't written back byte for byte, or one that isn't plain is",
        ),
    ];
    let first = faults.into_iter().find(|(found, _)| *found);
    first.map(|(_, law)| law)
}

fn reads_back(rows: &Rows) -> bool {
    let written = Sheet::of(rows).text();
    waits::read(written.as_bytes()).is_ok_and(|read| are_same(&read, rows))
}

fn are_same(a: &Rows, b: &Rows) -> bool {
    (a.nodes, &a.numbers) == (b.nodes, &b.numbers)
}

/// No quotes, no zeros in front, CR LF at the end; asked of files whose lines are all good.
fn is_plain(file: &[u8]) -> bool {
    let mut words = file.split(|byte| !byte.is_ascii_alphanumeric());
    let padded = words.any(|word| word.len() > 1 && word[0] == b'0');
    !padded && !file.contains(&b'"') && file.ends_with(LINE_END.as_bytes())
}
