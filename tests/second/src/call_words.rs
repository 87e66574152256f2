//! Names for what a trial of calls came upon.

use crate::alone::Alone;
use crate::bench::{self, DELIVER, OPEN};
use crate::codes::Letter;
use crate::graph::Rows;
use crate::library::LibraryCall::{self, *};
use crate::script::LARGEST_STEP_KIND;

pub fn name(call: &LibraryCall) -> &'static str {
    match call {
        Check(..) => "check",
        Deadlocked(..) => "deadlocked",
        AllDeadlocked(..) => "all_deadlocked",
        WriteEvidence(..) => "write_evidence",
        CheckEvidence(..) => "check_evidence",
        Ring(..) => "ring",
        In(..) => "in",
        Open(..) => "open",
        Deliver(..) => "deliver",
        Step(..) => "step",
        Run(..) => "run",
    }
}

/// A stray message leaves the record as it was, so this can still be seen.
pub fn why_stray(alone: &Alone, [kind, from, to, round]: Letter) -> &'static str {
    let [kept, call, freed, ..] = alone.record;
    let out = alone.row[2..].iter().fold(0, |out, set| out | set);
    let neighbours = if kind % 2 == 0 { alone.into } else { out };
    if to != alone.me {
        "the receiver"
    } else if neighbours >> from & 1 == 0 {
        "no neighbour"
    } else if round > kept {
        "a higher round"
    } else if kind == 3 && call == 0 {
        "a node not called"
    } else if kind == 2 && freed == 0 {
        "a node not free"
    } else {
        "no reason"
    }
}

pub fn kinds_sent(alone: &Alone) -> String {
    let mut sent = Vec::new();
    for (name, receivers) in ["NOTIFY", "GRANT", "ACK", "DONE"].iter().zip(alone.sends) {
        if receivers != 0 {
            sent.push(*name);
        }
    }
    match sent.is_empty() {
        true => String::from("nothing"),
        false => sent.join(" "),
    }
}

pub fn words(call: &LibraryCall, said: u64) -> String {
    let words = match (call, said) {
        (Deadlocked(..), 0) => "no",
        (Deadlocked(..), _) => "yes",
        (AllDeadlocked(..), _) => "written",
        (WriteEvidence(..), 0) => "none",
        (WriteEvidence(..), _) => "some",
        (CheckEvidence(..), 1) => "passes",
        (CheckEvidence(..), 2) => "lacks the claim",
        (CheckEvidence(..), _) => "fails at a member",
        (Ring(..), 0) => "not deadlocked",
        (Ring(..), 1) => "in",
        (Ring(..), _) => "behind",
        (In(..), _) => "written",
        (Run(_, steps, _), _) if steps.is_empty() => "of no steps",
        (Run(..), _) => "of steps",
        _ => return said.to_string(),
    };
    String::from(words)
}

pub fn length(list: usize) -> &'static str {
    match list {
        0 => "of 0",
        1 => "of 1",
        2..=64 => "of 2 to 64",
        65..=199 => "of 65 to 199",
        _ => "of 200 and more",
    }
}

pub fn kind([kind, ..]: bench::Step) -> &'static str {
    match kind {
        OPEN => "0",
        DELIVER => "1",
        2 => "2",
        3..=LARGEST_STEP_KIND => "3 to 65535",
        _ if kind < 1 << 63 => "more",
        _ => "2^63 and more",
    }
}

pub fn nodes(rows: &Rows) -> &'static str {
    match rows.nodes {
        0 => "0 nodes",
        1 => "1 node",
        2..=8 => "2 to 8 nodes",
        9..=63 => "9 to 63 nodes",
        64 => "64 nodes",
        65.. if rows.nodes < 1 << 63 => "65 nodes and more",
        _ => "2^63 nodes and more",
    }
}
