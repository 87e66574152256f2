//! `calls`: drawn calls of the library, made by a driver of C and by our own rules, until something differs.

use crate::call_tally::CallTally;
use crate::drawn_calls;
use crate::pipe::Program;
use std::io::{self, BufRead, BufReader, BufWriter, Write};
use std::process::{ChildStdin, ExitCode, Stdio};
use std::sync::mpsc::{self, Receiver, Sender};
use std::thread;

const PROGRESS_EVERY: u64 = 50_000;

/// A trial of so many calls must have come upon everything that it can.
const MANY: u64 = 200_000;

pub struct CallTrial<'a> {
    pub seed: u64,
    pub count: u64,
    pub program: Program<'a>,
}

impl CallTrial<'_> {
    pub fn check(&self) -> io::Result<ExitCode> {
        println!("calls: seed {}, {} calls", self.seed, self.count);
        let mut child = self.program.start(Stdio::inherit())?;
        let (Some(stdin), Some(stdout)) = (child.stdin.take(), child.stdout.take()) else {
            return Err(io::Error::other("the driver has no pipes"));
        };
        let mut output = BufReader::new(stdout);
        // The pipes are full long before many lines are waiting here to be compared.
        let (expects, expected) = mpsc::channel();
        let (tally, mismatch) = thread::scope(|scope| {
            let asking = scope.spawn(move || self.ask(stdin, expects));
            let mismatch = self.first_mismatch(&mut output, expected);
            // A driver that nobody reads from would never end.
            let _ = io::copy(&mut output, &mut io::sink());
            (asking.join(), mismatch)
        });
        let status = child.wait()?;
        let tally = tally.map_err(|_| io::Error::other("our own side broke off"))?;
        if let Some(mismatch) = mismatch? {
            println!("{mismatch}");
            return Ok(ExitCode::FAILURE);
        }
        if !status.success() {
            println!("calls: all lines agree, but the driver ended with {status}");
            return Ok(ExitCode::FAILURE);
        }
        Ok(self.conclude(&tally))
    }

    fn conclude(&self, tally: &CallTally) -> ExitCode {
        print!("{tally}");
        println!("calls: all {} calls agree", self.count);
        match self.count {
            MANY.. => tally.completeness("calls"),
            _ => ExitCode::SUCCESS,
        }
    }

    /// Asks for every call, and makes it by our own rules. Ends early if nobody compares any more, or nobody listens.
    fn ask(&self, stdin: ChildStdin, expects: Sender<String>) -> CallTally {
        let mut stdin = BufWriter::new(stdin);
        let mut tally = CallTally::new();
        for index in 0..self.count {
            let mut call = drawn_calls::draw(self.seed, index);
            let asked = call.asked();
            let result = call.make();
            tally.count(&call, result);
            let listened = stdin.write_all(asked.as_bytes()).is_ok();
            if !listened || expects.send(call.answered(result)).is_err() {
                break;
            }
        }
        tally
    }

    fn first_mismatch(
        &self,
        output: &mut impl BufRead,
        expected: Receiver<String>,
    ) -> io::Result<Option<String>> {
        let mut got = Vec::new();
        let mut index = 0;
        for expected in expected {
            got.clear();
            output.read_until(b'\n', &mut got)?;
            if got != expected.as_bytes() {
                return Ok(Some(self.shown(index, &expected, &got)));
            }
            index += 1;
            if index % PROGRESS_EVERY == 0 {
                println!("calls: {index} calls agree");
            }
        }
        if index < self.count {
            return Ok(Some(format!(
                "calls: the driver stopped listening after call {index}"
            )));
        }
        got.clear();
        output.read_to_end(&mut got)?;
        Ok((!got.is_empty())
            .then(|| format!("calls: more lines than calls: {}", got.escape_ascii())))
    }

    fn shown(&self, index: u64, expected: &str, got: &[u8]) -> String {
        let asked = drawn_calls::draw(self.seed, index).asked();
        // A line that was cut off gets the end that it lacks.
        let got = format!("{}\n", String::from_utf8_lossy(got).trim_end());
        let place = format!("call {index} of seed {}", self.seed);
        let word = first_difference(expected, &got);
        format!("asked:\n{asked}expected:\n{expected}got:\n{got}calls: differs at {place}, {word}")
    }
}

/// Lines may have thousands of numbers, so it is said which one to look at.
fn first_difference(expected: &str, got: &str) -> String {
    let mut expected = expected.split_whitespace();
    let mut got = got.split_whitespace();
    let mut place = 0;
    loop {
        place += 1;
        match (expected.next(), got.next()) {
            (None, None) => return String::from("in its blanks"),
            (ours, theirs) if ours != theirs => {
                let [ours, theirs] = [ours, theirs].map(|word| word.unwrap_or("nothing"));
                return format!("number {place} of the line: expected {ours}, got {theirs}");
            }
            _ => {}
        }
    }
}
