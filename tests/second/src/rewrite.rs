//! `rewrite`: a file of waits in, the same graph in the plain form out, or the refusal.

use crate::claims::{self, Outcome};
use crate::pipe::{first_difference, Program};
use crate::sheet::Sheet;
use std::io;

/// A file whose graph is refused is not written back.
pub fn text(outcome: &Outcome) -> String {
    match outcome {
        Outcome::Read(rows, Ok(_)) => Sheet::of(rows).text(),
        refused => refused.to_string(),
    }
}

/// What is wrong with a file that a program wrote back: it must be answered as before, and stay as it is when it is
/// rewritten again.
pub fn fault_in_back(
    program: &Program,
    outcome: &Outcome,
    back: &[u8],
) -> io::Result<Option<String>> {
    let Outcome::Read(_, Ok(_)) = outcome else {
        return Ok(None);
    };
    let answer = |outcome: &Outcome| outcome.to_string().into_bytes();
    let answer_differs = first_difference(&answer(outcome), &answer(&claims::judge(back)));
    let fault = match answer_differs {
        Some(fault) => Some(format!("who is deadlocked in what came back: {fault}")),
        None => {
            let again = program.run(back)?.fault(back);
            again.map(|fault| format!("rewritten again: {fault}"))
        }
    };
    Ok(fault)
}
