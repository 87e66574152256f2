//! A file of waits as it is written: lines of fields, and the plain form of a graph.

use crate::graph::{members, Rows, NUMBERS_A_ROW};
use crate::waits::HEADER;

pub const LINE_END: &str = "\r\n";

#[derive(Clone)]
pub struct Line {
    pub fields: Vec<String>,
    pub end: &'static str,
}

impl Line {
    pub fn of(fields: Vec<String>) -> Line {
        let end = LINE_END;
        Line { fields, end }
    }
}

pub struct Sheet {
    pub lines: Vec<Line>,
}

impl Sheet {
    /// The plain form: no zeros in front, no quotes, CR LF after every line.
    pub fn of(rows: &Rows) -> Sheet {
        let mut lines = vec![Line::of(HEADER.map(String::from).to_vec())];
        for (node, row) in rows.numbers.chunks(NUMBERS_A_ROW).enumerate() {
            let mut fields = vec![node.to_string()];
            fields.extend(row[..2].iter().map(u64::to_string));
            fields.extend(row[2..].iter().map(|bits| set(*bits)));
            lines.push(Line::of(fields));
        }
        Sheet { lines }
    }

    pub fn text(&self) -> String {
        let line = |line: &Line| line.fields.join(",") + line.end;
        self.lines.iter().map(line).collect()
    }
}

fn set(bits: u64) -> String {
    let words: Vec<String> = members(bits).iter().map(usize::to_string).collect();
    words.join(" ")
}
