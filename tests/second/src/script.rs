//! The script that `replay` reads: its numbers, its limits, and how one is written.

use crate::bench::Step;
use crate::decimal::number;
use crate::graph::{Rows, NUMBERS_A_ROW};
use crate::refusal_words::Place;

pub const MOST_BYTES: usize = 1_048_576;
pub const MOST_IN_A_LIST: u64 = 8_192;
pub const LARGEST_PLACE: u64 = (1 << 24) - 1;
pub const LARGEST_STEP_KIND: u64 = 65_535;

#[derive(Clone)]
pub struct Script {
    pub rows: Rows,
    pub room: u64,
    pub steps: Vec<Step>,
}

/// The input is no script, because of this line or step, or of none.
pub struct NoScript(pub Place);

impl NoScript {
    fn nowhere() -> NoScript {
        NoScript(Place::new())
    }
}

impl Script {
    pub fn read(input: &[u8]) -> Result<Script, NoScript> {
        if input.len() > MOST_BYTES {
            return Err(NoScript::nowhere());
        }
        let mut rest = numbers(input)?.into_iter();
        let mut next = |most: u64| {
            let number = rest.next().filter(|number| *number <= most);
            number.ok_or_else(NoScript::nowhere)
        };
        let nodes = next(u64::MAX)?;
        let row_numbers = next(MOST_IN_A_LIST)?;
        let numbers: Result<_, _> = (0..row_numbers).map(|_| next(u64::MAX)).collect();
        let rows = Rows {
            nodes,
            numbers: numbers?,
        };
        let room = next(MOST_IN_A_LIST)?;
        let count = next(MOST_IN_A_LIST)?;
        let steps = steps(&rest.collect::<Vec<u64>>(), count)?;
        Ok(Script { rows, room, steps })
    }

    /// The plain form: a row a line, a step a line.
    pub fn text(&self) -> String {
        let numbers = &self.rows.numbers;
        let mut lines = vec![vec![self.rows.nodes], vec![numbers.len() as u64]];
        lines.extend(numbers.chunks(NUMBERS_A_ROW).map(<[u64]>::to_vec));
        lines.extend([vec![self.room], vec![self.steps.len() as u64]]);
        lines.extend(self.steps.iter().map(|step| step.to_vec()));
        let mut text = String::new();
        for line in lines {
            let words: Vec<String> = line.iter().map(u64::to_string).collect();
            text += &words.join(" ");
            text.push('\n');
        }
        text
    }
}

fn numbers(input: &[u8]) -> Result<Vec<u64>, NoScript> {
    let is_blank = |byte: &u8| matches!(byte, b' ' | b'\t' | b'\r');
    let mut numbers = Vec::new();
    for (above, line) in input.split(|byte| *byte == b'\n').enumerate() {
        let words = line.split(is_blank).filter(|word| !word.is_empty());
        for word in words {
            let odd = || NoScript(format!("line {}", above + 1));
            numbers.push(number(word).ok_or_else(odd)?);
        }
    }
    Ok(numbers)
}

/// There must be just as many as are wanted before any of them is looked at.
fn steps(numbers: &[u64], count: u64) -> Result<Vec<Step>, NoScript> {
    if numbers.len() as u64 != 3 * count {
        return Err(NoScript::nowhere());
    }
    let mut steps = Vec::new();
    for (index, step) in numbers.chunks(3).enumerate() {
        if step[0] > LARGEST_STEP_KIND || step[1..].iter().any(|place| *place > LARGEST_PLACE) {
            return Err(NoScript(format!("step {index}")));
        }
        steps.push([step[0], step[1], step[2]]);
    }
    Ok(steps)
}
