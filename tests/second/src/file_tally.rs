//! What a trial of files has really tried. A long trial that misses any of it fails.

use crate::claims::{Outcome, MOST_BYTES};
use crate::counts::Counts;
use crate::drawn_files::{self, Drawn};
use crate::file_faults;
use crate::graph::{NodeSet, Refusal};
use crate::sheet::LINE_END;
use std::fmt;
use std::process::ExitCode;

/// Besides the kinds of files.
#[rustfmt::skip]
const EXPECTED: [(&str, &str); 8] = [
    ("answer:", "none deadlocked, some deadlocked, all deadlocked, refused 1, refused 2, refused 3, refused 4, \
        refused 5, refused 6, refused 7, refused 8, refused 20, refused 21"),
    ("refused in row 0:", "2, 3, 4, 5, 6, 7"),
    ("refused in a later row:", "2, 3, 4, 5, 6, 7"),
    ("refused 20:", "at the header, at the first row, at a middle row, at the last line"),
    ("told:", "the file is empty, a byte-order mark, in LF, semicolons, isn't the header, is missing, is empty, isn't a digit, \
        past 64 bits, a space too many, neither a digit nor a space, a member over 63, a member twice, isn't ascending, \
        more than seven fields, the next one"),
    ("rows read:", "0, 1, 2 to 62, 63, 64, 65, more"),
    ("bytes read:", "65535, 65536"),
    ("bytes refused 21:", "65537, more"),
];

pub struct FileTally {
    counts: Counts,
}

impl FileTally {
    pub fn new() -> FileTally {
        let mut counts = Counts::expecting(&EXPECTED);
        for (group, name) in drawn_files::names() {
            counts.expect(&format!("{group}:"), name);
        }
        FileTally { counts }
    }

    pub fn completeness(&self, trial: &str) -> ExitCode {
        self.counts.completeness(trial)
    }

    fn add(&mut self, group: &str, ending: &str) {
        self.counts.add(format!("{group}: {ending}"));
    }

    pub fn count(&mut self, drawn: &Drawn, outcome: &Outcome) {
        self.add(drawn.group, drawn.name);
        let bytes = &drawn.file.bytes;
        match outcome {
            Outcome::TooLong => self.too_long(bytes.len()),
            Outcome::BadLine(line) => self.bad_line(*line, bytes),
            Outcome::Read(rows, answer) => {
                self.add("rows read", rows_read(rows.nodes));
                match answer {
                    Ok(deadlocked) => self.accepted(deadlocked, rows.nodes, bytes.len()),
                    Err(refusal) => self.refused(refusal),
                }
            }
        }
    }

    fn too_long(&mut self, bytes: usize) {
        self.add("answer", "refused 21");
        let first = bytes == MOST_BYTES + 1;
        self.add("bytes refused 21", if first { "65537" } else { "more" });
    }

    fn bad_line(&mut self, line: usize, bytes: &[u8]) {
        self.add("answer", "refused 20");
        let ends = bytes.windows(2).filter(|pair| *pair == LINE_END.as_bytes());
        let lines = ends.count() + usize::from(!bytes.ends_with(LINE_END.as_bytes()));
        let place = match line {
            1 => "at the header",
            2 => "at the first row",
            _ if line < lines => "at a middle row",
            _ => "at the last line",
        };
        self.add("refused 20", place);
        self.add("told", told(&file_faults::words(bytes, line)));
    }

    fn refused(&mut self, refusal: &Refusal) {
        let number = refusal.number;
        self.add("answer", &format!("refused {number}"));
        if (2..=7).contains(&number) {
            let place = match refusal.row {
                0 => "refused in row 0",
                _ => "refused in a later row",
            };
            self.add(place, &number.to_string());
        }
    }

    fn accepted(&mut self, deadlocked: &NodeSet, nodes: u64, bytes: usize) {
        let answer = match deadlocked.len() as u64 {
            0 => "none deadlocked",
            stuck if stuck == nodes => "all deadlocked",
            _ => "some deadlocked",
        };
        self.add("answer", answer);
        if bytes + 1 >= MOST_BYTES {
            self.add("bytes read", &bytes.to_string());
        }
    }
}

/// What a clerk is told of a line, by the words that tell it from the others; the empty file before the empty field.
fn told(words: &str) -> &'static str {
    let mut telling = EXPECTED.iter().filter(|(group, _)| *group == "told:");
    let endings = telling.next().map_or("", |(_, endings)| *endings);
    let mut found = endings.split(", ").filter(|ending| words.contains(ending));
    found.next().unwrap_or("something else")
}

fn rows_read(rows: u64) -> &'static str {
    match rows {
        0 => "0",
        1 => "1",
        2..=62 => "2 to 62",
        63 => "63",
        64 => "64",
        65 => "65",
        _ => "more",
    }
}

impl fmt::Display for FileTally {
    fn fmt(&self, f: &mut fmt::Formatter) -> fmt::Result {
        self.counts.write_groups(f)
    }
}
