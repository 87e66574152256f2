//! A whole round on a fresh bench: every message is delivered, in one order or another.

use crate::bench::{Answer, Bench, DELIVER, OPEN};
use crate::graph::Graph;
use crate::node::Verdict;
use std::collections::VecDeque;

/// Takes the next message to deliver from those that wait, which stand in the order in which they were sent.
pub type Order = fn(&mut VecDeque<u64>) -> Option<u64>;

pub const OLDEST_FIRST: Order = VecDeque::pop_front;
pub const NEWEST_FIRST: Order = VecDeque::pop_back;

pub struct FullRound {
    pub bench: Bench,
    pub answers: Vec<Answer>,
}

impl FullRound {
    pub fn run(graph: Graph, lent: u64, node: u64, order: Order) -> FullRound {
        let mut bench = Bench::fresh(graph, lent);
        let mut answers = vec![bench.step([OPEN, node, 1])];
        let mut waiting: VecDeque<u64> = (0..bench.sent.len() as u64).collect();
        while let Some(message) = order(&mut waiting) {
            let before = bench.sent.len();
            answers.push(bench.step([DELIVER, message, 0]));
            waiting.extend(before as u64..bench.sent.len() as u64);
        }
        FullRound { bench, answers }
    }

    /// The first refusal's number, if a step was refused.
    pub fn refusal(&self) -> Option<u64> {
        self.answers.iter().find_map(|answer| match answer {
            Answer::Refused(number) => Some(*number),
            _ => None,
        })
    }

    pub fn verdict(&self) -> Option<Verdict> {
        self.answers.iter().find_map(|answer| match answer {
            Answer::Opened(verdict) | Answer::Taken(verdict) => *verdict,
            _ => None,
        })
    }
}
