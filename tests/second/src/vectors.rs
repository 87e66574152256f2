//! `vectors` and `files-vectors`: the written cases, held against our own rules and against a program.

use crate::claims;
use crate::pipe::{first_difference, Output, Program};
use crate::replay;
use crate::said;
use std::fs;
use std::io;
use std::path::{Path, PathBuf};
use std::process::ExitCode;

/// The written cases for one program.
pub struct Written {
    are_csv: bool,
    ours: fn(&[u8]) -> String,
    /// What else than the output is wrong, for this input.
    fault_beside: fn(&[u8], &Output) -> Option<String>,
}

pub const SCRIPTS: Written = Written {
    are_csv: false,
    ours: |input| replay::replay(input).to_string(),
    fault_beside: |input, output| replay::replay(input).fault_in_errors(&output.errors),
};

pub const FILES: Written = Written {
    are_csv: true,
    ours: |input| claims::judge(input).to_string(),
    fault_beside: |input, output| said::CLAIMS.fault(&claims::judge(input), input, &output.errors),
};

impl Written {
    pub fn check(&self, folder: &str, program: &Program) -> io::Result<ExitCode> {
        let mut agreeing = 0;
        let mut differing = 0;
        for case in self.cases(folder)? {
            let faults = self.faults(&case, program)?;
            for fault in &faults {
                println!("{}: {fault}", case.display());
            }
            if faults.is_empty() {
                agreeing += 1;
            } else {
                differing += 1;
            }
        }
        println!("vectors: {agreeing} agree, {differing} differ");
        // A folder without cases proves nothing, so it is no success.
        let good = agreeing > 0 && differing == 0;
        Ok(ExitCode::from(u8::from(!good)))
    }

    /// The `.in` files in order of their names.
    fn cases(&self, folder: &str) -> io::Result<Vec<PathBuf>> {
        let mut cases = Vec::new();
        for entry in fs::read_dir(folder)? {
            let entry = entry?;
            let name = entry.file_name().to_string_lossy().into_owned();
            if name.ends_with(".in") && name.starts_with("csv-") == self.are_csv {
                cases.push(entry.path());
            }
        }
        cases.sort();
        Ok(cases)
    }

    fn faults(&self, case: &Path, program: &Program) -> io::Result<Vec<String>> {
        let input = fs::read(case)?;
        let expected = match fs::read(case.with_extension("out")) {
            Ok(expected) => expected,
            Err(error) => return Ok(vec![format!("its .out can't be read: {error}")]),
        };
        let ours = first_difference(&expected, (self.ours)(&input).as_bytes());
        let output = program.run(&input)?;
        let beside = || (self.fault_beside)(&input, &output);
        let theirs = output.fault(&expected).or_else(beside);
        let ours = ours.map(|fault| format!("our own answer: {fault}"));
        let theirs = theirs.map(|fault| format!("the program: {fault}"));
        Ok(ours.into_iter().chain(theirs).collect())
    }
}
