//! What a random trial has really tried, counted for its reader.

use crate::bench::{Answer, MOST_ROOM};
use crate::counts::Counts;
use crate::replay::Outcome;
use std::fmt;

/// What a long trial should come upon, so that what never came shows as 0.
#[rustfmt::skip]
const EXPECTED: [(&str, &str); 4] = [
    ("answer", "old, stray, repeat, opened, opened deadlocked, opened not-deadlocked, taken, taken deadlocked, \
        taken not-deadlocked, refused 9, refused 10, refused 11, refused 12, refused 13, refused script"),
    ("graph of", "1 node, 64 nodes, 512 edges"),
    ("graph refused", "1, 2, 3, 4, 5, 6, 7, 8"),
    ("room", "0 to 8, 9 to 4095, 4096, over 4096, over 4096 run full"),
];

/// On a fresh bench every message comes from a neighbour and finds its receiver called or free as it must be, and
/// a node that isn't free has waits, so that opening it ends nothing.
const IMPOSSIBLE: [&str; 2] = ["answer stray", "answer opened deadlocked"];

pub struct Tally {
    counts: Counts,
}

impl Tally {
    pub fn new() -> Tally {
        Tally {
            counts: Counts::expecting(&EXPECTED),
        }
    }

    fn add(&mut self, name: String) {
        self.counts.add(name);
    }

    pub fn count(&mut self, sort: &str, outcome: &Outcome) {
        self.add(format!("script: {sort}"));
        match outcome {
            Outcome::NoScript(_) => self.add(String::from("answer refused script")),
            Outcome::Refused(refusal) => {
                self.add(String::from("answer refused 13"));
                self.add(format!("graph refused {}", refusal.number));
            }
            Outcome::Ran(answers, bench) => {
                for (answer, _) in answers {
                    self.add(format!("answer {answer}"));
                }
                let ran_full = |(answer, _): &(Answer, usize)| *answer == Answer::Refused(12);
                let full = answers.iter().any(ran_full);
                let (nodes, edges) = (bench.graph.len(), bench.graph.edges());
                let seen = [
                    (nodes == 1, "graph of 1 node"),
                    (nodes == 64, "graph of 64 nodes"),
                    (edges == 512, "graph of 512 edges"),
                    (full && bench.lent > MOST_ROOM, "room over 4096 run full"),
                    (true, room(bench.lent)),
                ];
                for (_, name) in seen.iter().filter(|(found, _)| *found) {
                    self.add(String::from(*name));
                }
            }
        }
    }
}

fn room(lent: u64) -> &'static str {
    match lent {
        0..=8 => "room 0 to 8",
        9..=4095 => "room 9 to 4095",
        4096 => "room 4096",
        _ => "room over 4096",
    }
}

impl fmt::Display for Tally {
    fn fmt(&self, f: &mut fmt::Formatter) -> fmt::Result {
        for (name, count) in self.counts.all() {
            let remark = match IMPOSSIBLE.contains(&name.as_str()) {
                true => " (can't occur on a fresh bench)",
                false => "",
            };
            writeln!(f, "{name}: {count}{remark}")?;
        }
        Ok(())
    }
}
