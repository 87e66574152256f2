//! What a program says of a file of waits on standard error: why it is refused, or that nobody is deadlocked.

use crate::claims::Outcome;
use crate::file_faults;
use crate::refusal_words::{self, Wanted, Wanted::*};

/// A program that says such things, each in a line that begins with its name.
pub struct Speaker {
    name: &'static str,
    names_nobody: bool,
}

pub const CLAIMS: Speaker = Speaker {
    name: "claims",
    names_nobody: true,
};

pub const REWRITE: Speaker = Speaker {
    name: "rewrite",
    names_nobody: false,
};

impl Speaker {
    fn wanted(&self, outcome: &Outcome, file: &[u8]) -> Wanted {
        match outcome {
            Outcome::TooLong => LineWith(String::from("65536 bytes")),
            Outcome::BadLine(line) => Line(file_faults::words(file, *line)),
            Outcome::Read(_, Err(refusal)) if (2..=7).contains(&refusal.number) => {
                LineWith(format!("row {}", refusal.row))
            }
            Outcome::Read(_, Err(_)) => LineWith(String::new()),
            Outcome::Read(_, Ok(deadlocked)) if self.names_nobody && deadlocked.is_empty() => {
                Line(String::from("nobody is deadlocked"))
            }
            Outcome::Read(_, Ok(_)) => Nothing,
        }
    }

    /// Our own words.
    pub fn words(&self, outcome: &Outcome, file: &[u8]) -> String {
        refusal_words::ours(self.name, self.wanted(outcome, file))
    }

    /// What is wrong with what the program wrote about this file.
    pub fn fault(&self, outcome: &Outcome, file: &[u8], errors: &[u8]) -> Option<String> {
        refusal_words::fault(self.name, self.wanted(outcome, file), errors)
    }
}
