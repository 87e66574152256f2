//! One node at work: its record, how it sorts an arriving message, and what it does with one that it takes.

use crate::graph::{Node, NodeSet};
use crate::message::{Kind, Message};
use std::collections::BTreeSet;

#[derive(Clone, Copy, Default, PartialEq, Eq)]
pub enum Call {
    #[default]
    NotCalled,
    Opened,
    By(usize),
}

#[derive(Clone, Copy, Default, PartialEq, Eq)]
pub enum Freed {
    #[default]
    NotFree,
    Itself,
    By(usize),
}

/// What a node remembers of its round: who gave what, never merely how many.
#[derive(Clone, Default)]
pub struct Record {
    pub round: u64,
    pub call: Call,
    pub freed: Freed,
    pub had: BTreeSet<(Kind, usize)>,
}

impl Record {
    fn blank(round: u64) -> Record {
        Record {
            round,
            ..Record::default()
        }
    }

    fn has_had_all(&self, kind: Kind, senders: &NodeSet) -> bool {
        let had = |sender: &usize| self.had.contains(&(kind, *sender));
        senders.iter().all(had)
    }

    pub fn senders(&self, wanted: Kind) -> NodeSet {
        let had = self.had.iter().filter(|(kind, _)| *kind == wanted);
        had.map(|(_, sender)| *sender).collect()
    }
}

#[derive(Clone, Copy, Debug, PartialEq, Eq)]
pub enum Verdict {
    Deadlocked,
    NotDeadlocked,
}

/// What a step leaves behind at its one node, not yet put in force.
pub struct Change {
    pub record: Record,
    pub sends: Vec<Message>,
    pub verdict: Option<Verdict>,
}

pub enum Delivery {
    Old,
    Stray,
    Repeat,
    Taken(Change),
}

pub fn open(node: &Node, round: u64) -> Change {
    let mut turn = Turn::new(node, Record::blank(round));
    turn.be_called(Call::Opened);
    turn.finish()
}

/// Sorts the message, first that fits, and works on it only if it is taken.
pub fn deliver(node: &Node, record: &Record, message: Message) -> Delivery {
    if message.round < record.round {
        return Delivery::Old;
    }
    // Of a higher round the node has had nothing, and is neither called nor free in it.
    let of_that_round = if message.round == record.round {
        record.clone()
    } else {
        Record::blank(message.round)
    };
    if is_stray(node, &of_that_round, message) {
        return Delivery::Stray;
    }
    if of_that_round.had.contains(&(message.kind, message.from)) {
        return Delivery::Repeat;
    }
    let mut turn = Turn::new(node, of_that_round);
    turn.take(message);
    Delivery::Taken(turn.finish())
}

fn is_stray(node: &Node, record: &Record, message: Message) -> bool {
    let from_into = node.into.contains(&message.from);
    let from_out = node.out.contains(&message.from);
    let expected = match message.kind {
        Kind::Notify => from_into,
        Kind::Grant => from_out,
        Kind::Ack => from_into && record.freed != Freed::NotFree,
        Kind::Done => from_out && record.call != Call::NotCalled,
    };
    message.to != node.me || !expected
}

/// A node in the middle of one step.
struct Turn<'a> {
    node: &'a Node,
    record: Record,
    sends: Vec<Message>,
    verdict: Option<Verdict>,
}

impl<'a> Turn<'a> {
    fn new(node: &'a Node, record: Record) -> Turn<'a> {
        Turn {
            node,
            record,
            sends: Vec::new(),
            verdict: None,
        }
    }

    fn finish(mut self) -> Change {
        self.sends.sort();
        Change {
            record: self.record,
            sends: self.sends,
            verdict: self.verdict,
        }
    }

    fn send(&mut self, kind: Kind, to: usize) {
        self.sends.push(Message {
            kind,
            from: self.node.me,
            to,
            round: self.record.round,
        });
    }

    fn take(&mut self, message: Message) {
        let sender = message.from;
        self.record.had.insert((message.kind, sender));
        match message.kind {
            Kind::Notify if self.record.call == Call::NotCalled => self.be_called(Call::By(sender)),
            Kind::Notify => self.send(Kind::Done, sender),
            Kind::Grant => self.be_granted(sender),
            Kind::Ack => {
                self.answer_the_freer_if_due();
                // Only an active node's call waits for its ACKs.
                if self.node.is_active() {
                    self.answer_the_call_if_due();
                }
            }
            Kind::Done => self.answer_the_call_if_due(),
        }
    }

    fn be_called(&mut self, call: Call) {
        self.record.call = call;
        if !self.node.is_active() {
            for target in &self.node.out {
                self.send(Kind::Notify, *target);
            }
        } else if self.record.freed == Freed::NotFree {
            self.become_free(Freed::Itself);
        }
        self.answer_the_call_if_due();
    }

    fn be_granted(&mut self, sender: usize) {
        let condition_holds = self.node.condition.holds(&self.record.senders(Kind::Grant));
        if self.record.freed == Freed::NotFree && condition_holds {
            self.become_free(Freed::By(sender));
            self.answer_the_freer_if_due();
        } else {
            self.send(Kind::Ack, sender);
        }
    }

    fn become_free(&mut self, freed: Freed) {
        self.record.freed = freed;
        for waiter in &self.node.into {
            self.send(Kind::Grant, *waiter);
        }
    }

    fn all_acks_are_in(&self) -> bool {
        self.record.has_had_all(Kind::Ack, &self.node.into)
    }

    fn answer_the_freer_if_due(&mut self) {
        if let Freed::By(freer) = self.record.freed {
            if self.all_acks_are_in() {
                self.send(Kind::Ack, freer);
            }
        }
    }

    /// Asked only by steps that bring in something awaited, so it is due at most once a round.
    fn answer_the_call_if_due(&mut self) {
        let dones_are_in = self.record.has_had_all(Kind::Done, &self.node.out);
        if !dones_are_in || (self.node.is_active() && !self.all_acks_are_in()) {
            return;
        }
        match self.record.call {
            Call::NotCalled => {}
            Call::By(caller) => self.send(Kind::Done, caller),
            Call::Opened if self.record.freed == Freed::NotFree => {
                self.verdict = Some(Verdict::Deadlocked)
            }
            Call::Opened => self.verdict = Some(Verdict::NotDeadlocked),
        }
    }
}
