//! Another program: fed through a pipe, and what it writes held against what was expected.

use std::io::{self, Write};
use std::process::{Child, Command, ExitStatus, Stdio};
use std::thread;

/// The program under trial and the arguments it is always given.
pub struct Program<'a> {
    pub name: &'a str,
    pub arguments: &'a [&'a str],
}

pub struct Output {
    pub bytes: Vec<u8>,
    pub errors: Vec<u8>,
    status: ExitStatus,
}

impl Program<'_> {
    /// Started, with its pipes still to be taken.
    pub fn start(&self, errors: Stdio) -> io::Result<Child> {
        Command::new(self.name)
            .args(self.arguments)
            .stdin(Stdio::piped())
            .stdout(Stdio::piped())
            .stderr(errors)
            .spawn()
            .map_err(|error| io::Error::new(error.kind(), format!("{}: {error}", self.name)))
    }

    pub fn run(&self, input: &[u8]) -> io::Result<Output> {
        let mut child = self.start(Stdio::piped())?;
        let stdin = child.stdin.take();
        // Writing beside the reading: with both in turn, two full pipes would wait on each other.
        let output = thread::scope(|scope| {
            scope.spawn(move || {
                // A program may answer before it has read everything; what it answers is what counts.
                let _ = stdin.map(|mut stdin| stdin.write_all(input));
            });
            child.wait_with_output()
        })?;
        Ok(Output {
            bytes: output.stdout,
            errors: output.stderr,
            status: output.status,
        })
    }
}

impl Output {
    /// Where the program wrote something else, or else how it failed.
    pub fn fault(&self, expected: &[u8]) -> Option<String> {
        let failed = (!self.status.success()).then(|| format!("it ended with {}", self.status));
        let fault = first_difference(expected, &self.bytes).or(failed)?;
        // Its own words may tell why.
        let errors = match self.errors.as_slice() {
            [] => String::new(),
            errors => format!("; standard error: \"{}\"", errors.escape_ascii()),
        };
        Some(fault + &errors)
    }
}

/// The first line that differs; None where the bytes are the same.
pub fn first_difference(expected: &[u8], got: &[u8]) -> Option<String> {
    let (expected, got) = (lines(expected), lines(got));
    let most = expected.len().max(got.len());
    let line = (0..most).find(|line| expected.get(*line) != got.get(*line))?;
    let shown = |lines: &[&[u8]]| match lines.get(line) {
        Some(bytes) => format!("\"{}\"", bytes.escape_ascii()),
        None => String::from("no line"),
    };
    let (expected, got) = (shown(&expected), shown(&got));
    Some(format!("line {}: expected {expected}, got {got}", line + 1))
}

fn lines(bytes: &[u8]) -> Vec<&[u8]> {
    bytes.split_inclusive(|byte| *byte == b'\n').collect()
}

/// Readable lines as they stand; anything else line by line with its odd bytes escaped, so that none is hidden.
pub fn readable(bytes: &[u8]) -> String {
    let is_plain = |byte: &u8| *byte == b'\n' || (b' '..=b'~').contains(byte);
    let is_ended = bytes.is_empty() || bytes.ends_with(b"\n");
    if is_ended && bytes.iter().all(is_plain) {
        String::from_utf8_lossy(bytes).into_owned()
    } else {
        let escaped = |line: &&[u8]| format!("{}\n", line.escape_ascii());
        let escaped: String = lines(bytes).iter().map(escaped).collect();
        format!("(escaped)\n{escaped}")
    }
}
