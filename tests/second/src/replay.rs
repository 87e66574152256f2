//! `replay`: a script in, a line for each step and each message out.

use crate::bench::{Answer, Bench, Step};
use crate::graph::Refusal;
use crate::refusal_words::{self, Wanted};
use crate::script::{NoScript, Script};
use std::fmt;

/// How a script came out.
pub enum Outcome {
    NoScript(NoScript),
    /// The list of steps was refused as a whole, because the graph was refused.
    Refused(Refusal),
    /// Each step's answer with how many messages were sent after it, and the bench at the end.
    Ran(Vec<(Answer, usize)>, Bench),
}

/// What is shown the bench, the step and its answer after each step.
pub type Watcher<'a> = &'a mut dyn FnMut(&Bench, Step, Answer);

pub fn replay(input: &[u8]) -> Outcome {
    run(input, &mut |_, _, _| {})
}

pub fn run(input: &[u8], watcher: Watcher) -> Outcome {
    let script = match Script::read(input) {
        Ok(script) => script,
        Err(none) => return Outcome::NoScript(none),
    };
    let graph = match script.rows.graph() {
        Ok(graph) => graph,
        Err(refusal) => return Outcome::Refused(refusal),
    };
    let mut bench = Bench::fresh(graph, script.room);
    let mut answers = Vec::new();
    for step in script.steps {
        let answer = bench.step(step);
        answers.push((answer, bench.sent.len()));
        watcher(&bench, step, answer);
    }
    Outcome::Ran(answers, bench)
}

impl Outcome {
    /// Nothing is said on standard error where the steps are refused as a whole.
    fn wanted(&self) -> Wanted {
        match self {
            Outcome::NoScript(NoScript(place)) => Wanted::LineWith(place.clone()),
            Outcome::Refused(_) | Outcome::Ran(..) => Wanted::Nothing,
        }
    }

    pub fn errors(&self) -> String {
        refusal_words::ours("replay", self.wanted())
    }

    pub fn fault_in_errors(&self, errors: &[u8]) -> Option<String> {
        refusal_words::fault("replay", self.wanted(), errors)
    }
}

impl fmt::Display for Outcome {
    fn fmt(&self, f: &mut fmt::Formatter) -> fmt::Result {
        match self {
            Outcome::NoScript(_) => writeln!(f, "refused script"),
            // A fresh bench is bad only through its graph, and a bench says 13 of that whatever the graph's number.
            Outcome::Refused(_) => writeln!(f, "refused 13 0"),
            Outcome::Ran(answers, bench) => {
                for (answer, sent) in answers {
                    writeln!(f, "{answer} {sent}")?;
                }
                for (number, message) in bench.sent.iter().enumerate() {
                    writeln!(f, "message {number} {message}")?;
                }
                Ok(())
            }
        }
    }
}
