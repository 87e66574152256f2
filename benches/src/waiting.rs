//! A run in the making: steps on a bench of the second program, and the messages that nobody has delivered yet.

use second::bench::{Answer, Bench, Step, DELIVER, OPEN};

pub struct Waiting {
    pub bench: Bench,
    pub steps: Vec<Step>,
    pub numbers: Vec<usize>,
}

impl Waiting {
    pub fn on(bench: Bench) -> Waiting {
        Waiting {
            bench,
            steps: Vec::new(),
            numbers: Vec::new(),
        }
    }

    pub fn open(&mut self, node: u64, round: u64) {
        self.take([OPEN, node, round]);
    }

    /// Delivers the message that waits at a place.
    pub fn deliver(&mut self, place: usize) {
        let number = self.numbers.remove(place);
        self.take([DELIVER, number as u64, 0]);
    }

    fn take(&mut self, step: Step) {
        let before = self.bench.sent.len();
        if let Answer::Refused(number) = self.bench.step(step) {
            panic!("step {step:?} is refused with {number}");
        }
        self.numbers.extend(before..self.bench.sent.len());
        self.steps.push(step);
    }
}
