//! The eleven calls of the library for C: what each is handed, what the rules make of it, and both as lines of numbers.

use crate::alone::Alone;
use crate::bench;
use crate::codes::{answer_code, Letter};
use crate::graph::{bits, Refusal, Rows};
use crate::lent::LentBench;
use crate::line::Line;
use crate::questions;
use crate::reduction::{self, Judged};
use LibraryCall::*;

/// What is said without a refusal stands above every refusal.
pub const SAID: u64 = 65_536;

pub enum LibraryCall {
    Check(Rows),
    Deadlocked(Rows, u64),
    /// The last is the place for the set.
    AllDeadlocked(Rows, u64),
    WriteEvidence(Rows, u64, Vec<u8>),
    CheckEvidence(Rows, u64, Vec<u8>),
    Ring(Rows, u64),
    /// The last is the place for the set.
    In(Rows, u64, u64),
    Open(Alone, u64),
    Deliver(Alone, Letter),
    Step(LentBench, bench::Step),
    /// The steps, and the places for their answers.
    Run(LentBench, Vec<u64>, Vec<u64>),
}

impl LibraryCall {
    /// Makes the call by our own rules, on the lent places themselves, and gives its result.
    pub fn make(&mut self) -> u64 {
        match self.answer() {
            Err(refusal) => refusal.number + 256 * refusal.row as u64,
            Ok(_) if matches!(self, Check(_)) => 0,
            Ok(said) => SAID + said,
        }
    }

    fn answer(&mut self) -> Result<u64, Refusal> {
        match self {
            Check(rows) => rows.graph().map(|_| 0),
            Deadlocked(rows, node) => questions::is_deadlocked(rows, *node).map(u64::from),
            AllDeadlocked(rows, set) => {
                *set = bits(&reduction::deadlocked(&rows.graph()?));
                Ok(0)
            }
            WriteEvidence(rows, node, room) => {
                questions::write_evidence(rows, *node, room).map(|written| written as u64)
            }
            CheckEvidence(rows, node, list) => {
                questions::judge_list(rows, *node, list).map(|judged| match judged {
                    Judged::Passes => 1,
                    Judged::ClaimMissing => 2,
                    Judged::Satisfied(member) => 256 + member as u64,
                })
            }
            Ring(rows, node) => questions::ring(rows, *node).map(|ring| match ring {
                reduction::Ring::NotDeadlocked => 0,
                reduction::Ring::In => 1,
                reduction::Ring::Behind => 2,
            }),
            In(rows, node, set) => {
                *set = bits(&questions::waiting_on(rows, *node)?);
                Ok(0)
            }
            Open(alone, round) => alone.open(*round).map(answer_code),
            Deliver(alone, letter) => alone.deliver(*letter).map(answer_code),
            Step(bench, step) => bench.step(*step).map(answer_code),
            Run(bench, steps, answers) => bench.run(steps, answers).map(|()| 0),
        }
    }

    /// The line that asks for the call, with everything that it is handed.
    pub fn asked(&self) -> String {
        let mut line = Line::beginning_with(self.number());
        match self {
            Check(rows) => write_rows(&mut line, rows),
            Deadlocked(rows, node) | Ring(rows, node) => write_rows(&mut line, rows).number(*node),
            AllDeadlocked(rows, set) => write_rows(&mut line, rows).number(*set),
            WriteEvidence(rows, node, bytes) | CheckEvidence(rows, node, bytes) => {
                write_rows(&mut line, rows).number(*node).list(bytes)
            }
            In(rows, node, set) => write_rows(&mut line, rows).number(*node).number(*set),
            Open(alone, round) => write_alone(&mut line, alone)
                .number(*round)
                .places(&alone.sends),
            Deliver(alone, letter) => write_alone(&mut line, alone)
                .places(letter)
                .places(&alone.sends),
            Step(bench, step) => write_bench(&mut line, bench).places(step),
            Run(bench, steps, answers) => write_bench(&mut line, bench).list(steps).list(answers),
        };
        line.ended()
    }

    /// The line that answers the call: its result, and all lent places as they are now.
    pub fn answered(&self, result: u64) -> String {
        let mut line = Line::beginning_with(result);
        match self {
            Check(_) | Deadlocked(..) | CheckEvidence(..) | Ring(..) => &mut line,
            AllDeadlocked(_, set) | In(_, _, set) => line.number(*set),
            WriteEvidence(_, _, room) => line.places(room),
            Open(alone, _) | Deliver(alone, _) => line.places(&alone.record).places(&alone.sends),
            Step(bench, _) => write_state(&mut line, bench),
            Run(bench, _, answers) => write_state(&mut line, bench).places(answers),
        };
        line.ended()
    }

    fn number(&self) -> u64 {
        match self {
            Check(..) => 0,
            Deadlocked(..) => 1,
            AllDeadlocked(..) => 2,
            WriteEvidence(..) => 3,
            CheckEvidence(..) => 4,
            Ring(..) => 5,
            Open(..) => 6,
            Deliver(..) => 7,
            Step(..) => 8,
            Run(..) => 9,
            In(..) => 10,
        }
    }
}

fn write_rows<'a>(line: &'a mut Line, rows: &Rows) -> &'a mut Line {
    line.number(rows.nodes).list(&rows.numbers)
}

fn write_alone<'a>(line: &'a mut Line, alone: &Alone) -> &'a mut Line {
    line.number(alone.nodes).number(alone.me).list(&alone.row);
    line.number(alone.into).places(&alone.record)
}

fn write_bench<'a>(line: &'a mut Line, bench: &LentBench) -> &'a mut Line {
    write_rows(line, &bench.rows);
    line.list(&bench.records).list(&bench.messages);
    line.number(bench.sent).number(bench.highest)
}

fn write_state<'a>(line: &'a mut Line, bench: &LentBench) -> &'a mut Line {
    line.places(&bench.records).places(&bench.messages);
    line.number(bench.sent).number(bench.highest)
}
