//! A line of numbers, as calls and their answers are written.

use std::fmt::Write;

pub struct Line {
    text: String,
}

impl Line {
    pub fn beginning_with(number: u64) -> Line {
        Line {
            text: number.to_string(),
        }
    }

    pub fn number(&mut self, number: u64) -> &mut Line {
        // Writing to a String can't fail.
        let _ = write!(self.text, " {number}");
        self
    }

    /// The content alone.
    pub fn places<Number: Copy + Into<u64>>(&mut self, numbers: &[Number]) -> &mut Line {
        for number in numbers {
            self.number((*number).into());
        }
        self
    }

    /// The length, then the content.
    pub fn list<Number: Copy + Into<u64>>(&mut self, numbers: &[Number]) -> &mut Line {
        self.number(numbers.len() as u64).places(numbers)
    }

    pub fn ended(mut self) -> String {
        self.text.push('\n');
        self.text
    }
}
