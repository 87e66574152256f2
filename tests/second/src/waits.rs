//! A file of waits: its header, its rows as numbers, and the first line that breaks the rules.

use crate::csv::{Record, Records};
use crate::decimal::number;
use crate::graph::{bits, NodeSet, Row, Rows};

pub const HEADER: [&str; 7] = ["node", "kind", "threshold", "set1", "set2", "set3", "set4"];

/// A row's set has 64 places, whatever the number of nodes.
pub const LARGEST_MEMBER: u64 = 63;

/// The number of the first line that breaks the rules; the header is line 1.
pub struct BadLine(pub usize);

/// Says nothing of the graph yet: any number of rows is read, and kinds and thresholds of any value.
pub fn read(file: &[u8]) -> Result<Rows, BadLine> {
    let mut records = Records::of(file);
    match records.next() {
        Some(Ok(record)) if is_header(&record) => {}
        _ => return Err(BadLine(1)),
    }
    let mut rows = Vec::new();
    for record in records {
        // A good record is one line, as no column takes a line's end in quotes. So records count lines.
        let line = rows.len() + 2;
        let record = record.map_err(|_| BadLine(line))?;
        rows.push(row(rows.len(), &record).ok_or(BadLine(line))?);
    }
    Ok(Rows::of(&rows))
}

fn is_header(record: &Record) -> bool {
    let words = HEADER.iter().map(|word| word.as_bytes());
    words.eq(record.iter().map(Vec::as_slice))
}

fn row(node: usize, record: &Record) -> Option<Row> {
    let [name, kind, threshold, set1, set2, set3, set4] = record.as_slice() else {
        return None;
    };
    if number(name)? != node as u64 {
        return None;
    }
    Some([
        number(kind)?,
        number(threshold)?,
        set(set1)?,
        set(set2)?,
        set(set3)?,
        set(set4)?,
    ])
}

/// A space too many leaves an empty word, which is no number.
fn set(field: &[u8]) -> Option<u64> {
    let mut set = NodeSet::new();
    if field.is_empty() {
        return Some(bits(&set));
    }
    for word in field.split(|byte| *byte == b' ') {
        let member = number(word).filter(|member| *member <= LARGEST_MEMBER)? as usize;
        if set.last().is_some_and(|last| *last >= member) {
            return None;
        }
        set.insert(member);
    }
    Some(bits(&set))
}
