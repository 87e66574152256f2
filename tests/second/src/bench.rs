//! The bench: all nodes of a graph, every message ever sent, and steps that open rounds or deliver.

use crate::graph::{Graph, NodeSet};
use crate::message::Message;
use crate::node::{self, Call, Change, Delivery, Freed, Record, Verdict};
use std::fmt;

pub const LAST_ROUND: u64 = 65_535;
pub const MOST_ROOM: u64 = 4_096;

/// Kind, a and b: OPEN opens node a in round b, DELIVER delivers message a, other kinds don't exist.
pub type Step = [u64; 3];

pub const OPEN: u64 = 0;
pub const DELIVER: u64 = 1;

#[derive(Clone, Copy, PartialEq, Eq)]
pub enum Answer {
    Refused(u64),
    Old,
    Stray,
    Repeat,
    Taken(Option<Verdict>),
    Opened(Option<Verdict>),
}

impl fmt::Display for Answer {
    fn fmt(&self, f: &mut fmt::Formatter) -> fmt::Result {
        let words = |verdict: &Option<Verdict>| match verdict {
            None => "",
            Some(Verdict::Deadlocked) => " deadlocked",
            Some(Verdict::NotDeadlocked) => " not-deadlocked",
        };
        match self {
            Answer::Refused(number) => write!(f, "refused {number}"),
            Answer::Old => f.write_str("old"),
            Answer::Stray => f.write_str("stray"),
            Answer::Repeat => f.write_str("repeat"),
            Answer::Taken(verdict) => write!(f, "taken{}", words(verdict)),
            Answer::Opened(verdict) => write!(f, "opened{}", words(verdict)),
        }
    }
}

pub struct Bench {
    pub graph: Graph,
    pub records: Vec<Record>,
    pub sent: Vec<Message>,
    pub highest: u64,
    /// How many messages the lent list could hold.
    pub lent: u64,
}

impl Bench {
    pub fn fresh(graph: Graph, lent: u64) -> Bench {
        Bench {
            records: vec![Record::default(); graph.len()],
            graph,
            sent: Vec::new(),
            highest: 0,
            lent,
        }
    }

    pub fn room(&self) -> usize {
        self.lent.min(MOST_ROOM) as usize
    }

    pub fn called_in(&self, round: u64) -> NodeSet {
        self.with_record(|record| record.round == round && record.call != Call::NotCalled)
    }

    pub fn free_in(&self, round: u64) -> NodeSet {
        self.with_record(|record| record.round == round && record.freed != Freed::NotFree)
    }

    fn with_record(&self, such: impl Fn(&Record) -> bool) -> NodeSet {
        let nodes = 0..self.records.len();
        nodes.filter(|node| such(&self.records[*node])).collect()
    }

    pub fn step(&mut self, step: Step) -> Answer {
        match step {
            [OPEN, node, round] => self.open(node, round),
            [DELIVER, number, _] => self.deliver(number),
            _ => Answer::Refused(11),
        }
    }

    fn open(&mut self, node: u64, round: u64) -> Answer {
        if node >= self.graph.len() as u64 {
            return Answer::Refused(9);
        }
        if round == 0 || round > LAST_ROUND || round <= self.highest {
            return Answer::Refused(10);
        }
        let change = node::open(&self.graph.nodes[node as usize], round);
        self.put_in_force(node as usize, change, Answer::Opened)
    }

    fn deliver(&mut self, number: u64) -> Answer {
        if number >= self.sent.len() as u64 {
            return Answer::Refused(11);
        }
        let message = self.sent[number as usize];
        let me = message.to;
        match node::deliver(&self.graph.nodes[me], &self.records[me], message) {
            Delivery::Old => Answer::Old,
            Delivery::Stray => Answer::Stray,
            Delivery::Repeat => Answer::Repeat,
            Delivery::Taken(change) => self.put_in_force(me, change, Answer::Taken),
        }
    }

    /// Nothing at all is kept of a step whose messages don't fit.
    fn put_in_force(
        &mut self,
        me: usize,
        change: Change,
        answer: fn(Option<Verdict>) -> Answer,
    ) -> Answer {
        if self.sent.len() + change.sends.len() > self.room() {
            return Answer::Refused(12);
        }
        // Only an opening brings a round above the highest; every message is of a round opened before.
        self.highest = self.highest.max(change.record.round);
        self.records[me] = change.record;
        self.sent.extend(change.sends);
        answer(change.verdict)
    }
}
