//! `random`: drawn scripts, held against a program and against the paper's laws, until something differs.

use crate::cases::{lock, Cases};
use crate::laws::Laws;
use crate::pipe::{readable, Program};
use crate::replay;
use crate::sorts;
use crate::tally::Tally;
use std::io;
use std::process::ExitCode;
use std::sync::Mutex;

const PROGRESS_EVERY: u64 = 500;

pub struct Trial<'a> {
    pub seed: u64,
    pub count: u64,
    pub program: Program<'a>,
}

impl Trial<'_> {
    pub fn check(&self) -> io::Result<ExitCode> {
        println!("random: seed {}, {} scripts", self.seed, self.count);
        let tally = Mutex::new(Tally::new());
        let scripts = Cases {
            trial: "random",
            what: "scripts",
            count: self.count,
            progress_every: PROGRESS_EVERY,
        };
        if !scripts.agree(|index| self.mismatch(index, &tally))? {
            return Ok(ExitCode::FAILURE);
        }
        print!("{}", lock(&tally));
        println!("random: all {} scripts agree", self.count);
        Ok(ExitCode::SUCCESS)
    }

    fn mismatch(&self, index: u64, tally: &Mutex<Tally>) -> io::Result<Option<String>> {
        let (sort, input) = sorts::draw(self.seed, index);
        let mut laws = Laws::default();
        let outcome = replay::run(&input, &mut |bench, step, answer| {
            laws.watch(bench, step, answer)
        });
        lock(tally).count(sort, &outcome);
        let expected = outcome.to_string();
        let output = self.program.run(&input)?;
        let fault = match laws.broken(&outcome) {
            Some(law) => Some(format!("our own run breaks a law: {law}")),
            None => output
                .fault(expected.as_bytes())
                .or_else(|| outcome.fault_in_errors(&output.errors)),
        };
        Ok(fault.map(|fault| {
            let (script, got) = (readable(&input), readable(&output.bytes));
            let place = format!("script {index} of seed {} ({sort})", self.seed);
            format!("script:\n{script}expected:\n{expected}got:\n{got}random: differs at {place}, {fault}")
        }))
    }
}
