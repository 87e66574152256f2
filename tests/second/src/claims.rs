//! `claims`: a file of waits in, the deadlocked nodes or the refusal out.

use crate::graph::{NodeSet, Refusal, Rows};
use crate::reduction;
use crate::waits::{self, BadLine};
use std::fmt;

pub const MOST_BYTES: usize = 65_536;

/// How a file came out.
pub enum Outcome {
    TooLong,
    BadLine(usize),
    /// All lines are good: the rows they hold, and the deadlocked nodes or the graph's number.
    Read(Rows, Result<NodeSet, Refusal>),
}

pub fn judge(file: &[u8]) -> Outcome {
    if file.len() > MOST_BYTES {
        return Outcome::TooLong;
    }
    match waits::read(file) {
        Err(BadLine(line)) => Outcome::BadLine(line),
        Ok(rows) => {
            let graph = rows.graph();
            let deadlocked = graph.map(|graph| reduction::deadlocked(&graph));
            Outcome::Read(rows, deadlocked)
        }
    }
}

impl fmt::Display for Outcome {
    fn fmt(&self, f: &mut fmt::Formatter) -> fmt::Result {
        match self {
            Outcome::TooLong => writeln!(f, "refused 21 0"),
            Outcome::BadLine(line) => writeln!(f, "refused 20 {line}"),
            Outcome::Read(_, Err(Refusal { number, row })) => writeln!(f, "refused {number} {row}"),
            Outcome::Read(_, Ok(deadlocked)) => {
                let mut nodes = deadlocked.iter();
                nodes.try_for_each(|node| writeln!(f, "{node}"))
            }
        }
    }
}
