//! `files` and `rewrites`: drawn files of waits, held against a program and against the laws of reading and writing,
//! until something differs.

use crate::cases::{lock, Cases};
use crate::claims::{self, Outcome};
use crate::drawn_files;
use crate::file_laws;
use crate::file_tally::FileTally;
use crate::pipe::{readable, Output, Program};
use crate::rewrite;
use crate::said::{self, Speaker};
use std::io;
use std::process::ExitCode;
use std::sync::Mutex;

const PROGRESS_EVERY: u64 = 5_000;

/// A trial of so many files must have come upon everything that it can.
const MANY: u64 = 8_000;

/// What a program must make of a file.
pub struct Task {
    trial: &'static str,
    speaker: Speaker,
    text: fn(&Outcome) -> String,
    /// What is wrong with the text of a program that wrote what it must.
    fault_beside: fn(&Program, &Outcome, &[u8]) -> io::Result<Option<String>>,
}

pub const CLAIMS: Task = Task {
    trial: "files",
    speaker: said::CLAIMS,
    text: Outcome::to_string,
    fault_beside: |_, _, _| Ok(None),
};

pub const REWRITE: Task = Task {
    trial: "rewrites",
    speaker: said::REWRITE,
    text: rewrite::text,
    fault_beside: rewrite::fault_in_back,
};

pub struct FileTrial<'a> {
    pub task: Task,
    pub seed: u64,
    pub count: u64,
    pub program: Program<'a>,
}

impl FileTrial<'_> {
    pub fn check(&self) -> io::Result<ExitCode> {
        let trial = self.task.trial;
        println!("{trial}: seed {}, {} files", self.seed, self.count);
        let tally = Mutex::new(FileTally::new());
        let files = Cases {
            trial,
            what: "files",
            count: self.count,
            progress_every: PROGRESS_EVERY,
        };
        if !files.agree(|index| self.mismatch(index, &tally))? {
            return Ok(ExitCode::FAILURE);
        }
        let tally = lock(&tally);
        print!("{tally}");
        println!("{trial}: all {} files agree", self.count);
        match self.count {
            MANY.. => Ok(tally.completeness(trial)),
            _ => Ok(ExitCode::SUCCESS),
        }
    }

    fn mismatch(&self, index: u64, tally: &Mutex<FileTally>) -> io::Result<Option<String>> {
        let drawn = drawn_files::draw(self.seed, index);
        let bytes = &drawn.file.bytes;
        let outcome = claims::judge(bytes);
        lock(tally).count(&drawn, &outcome);
        let expected = (self.task.text)(&outcome);
        let output = self.program.run(bytes)?;
        let fault = match file_laws::broken(&drawn.file, &outcome) {
            Some(law) => Some(format!("our own side breaks a law: {law}")),
            None => self.fault(bytes, &outcome, &expected, &output)?,
        };
        Ok(fault.map(|fault| {
            let (file, got) = (readable(bytes), readable(&output.bytes));
            let kind = format!("{}: {}", drawn.group, drawn.name);
            let place = format!("file {index} of seed {} ({kind})", self.seed);
            let trial = self.task.trial;
            format!(
                "file:\n{file}expected:\n{expected}got:\n{got}{trial}: differs at {place}, {fault}"
            )
        }))
    }

    fn fault(
        &self,
        file: &[u8],
        outcome: &Outcome,
        expected: &str,
        output: &Output,
    ) -> io::Result<Option<String>> {
        let fault = output.fault(expected.as_bytes());
        let speaker = &self.task.speaker;
        match fault.or_else(|| speaker.fault(outcome, file, &output.errors)) {
            Some(fault) => Ok(Some(fault)),
            None => (self.task.fault_beside)(&self.program, outcome, &output.bytes),
        }
    }
}
