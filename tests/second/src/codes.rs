//! Records, messages, steps and answers as the numbers that are lent to the library, and what of them doesn't exist.

use crate::bench::{Answer, Step};
use crate::graph::{bits, members};
use crate::message::{Kind, Message, KINDS};
use crate::node::{Call, Freed, Record, Verdict};
use crate::script::LARGEST_PLACE;

pub const NUMBERS_A_RECORD: usize = 7;

/// Round, call, freed, and the senders of NOTIFY, GRANT, ACK and DONE had.
pub type RecordNumbers = [u64; NUMBERS_A_RECORD];

/// Kind, sender, receiver and round of a message, which may be anything.
pub type Letter = [u64; 4];

/// What number 13 is given for. The paper gives it one number; a trial should know that it has come upon every reason.
pub type Strange = &'static str;

/// Which nodes and rounds there are.
#[derive(Clone, Copy)]
pub struct Known {
    pub nodes: usize,
    pub last_round: u64,
}

impl Known {
    pub fn has(self, node: u64) -> bool {
        node < self.nodes as u64
    }

    pub fn has_all(self, set: u64) -> bool {
        members(set).iter().all(|member| *member < self.nodes)
    }

    pub fn record(self, numbers: &[u64]) -> Result<Record, Strange> {
        let [round, call, freed, had @ ..] = numbers else {
            return Err("a record cut short");
        };
        if *round > self.last_round {
            return Err("a record's round");
        }
        let call = match call {
            0 => Call::NotCalled,
            1 => Call::Opened,
            by if self.has(by - 2) => Call::By((by - 2) as usize),
            _ => return Err("a record's call"),
        };
        let freed = match freed {
            0 => Freed::NotFree,
            1 => Freed::Itself,
            by if self.has(by - 2) => Freed::By((by - 2) as usize),
            _ => return Err("a record's freed"),
        };
        if !had.iter().all(|set| self.has_all(*set)) {
            return Err("a record's set");
        }
        let of_kind = |(kind, set): (&Kind, &u64)| {
            let kind = *kind;
            members(*set).into_iter().map(move |sender| (kind, sender))
        };
        Ok(Record {
            round: *round,
            call,
            freed,
            had: KINDS.iter().zip(had).flat_map(of_kind).collect(),
        })
    }

    pub fn message(self, letter: Letter) -> Result<Message, Strange> {
        let [kind, from, to, round] = letter;
        let faults = [
            (kind >= KINDS.len() as u64, "a message's kind"),
            (!self.has(from), "a message's sender"),
            (!self.has(to), "a message's receiver"),
            (round == 0, "a message of round 0"),
            (round > self.last_round, "a message's round"),
        ];
        if let Some((_, fault)) = faults.into_iter().find(|(found, _)| *found) {
            return Err(fault);
        }
        Ok(Message {
            kind: KINDS[kind as usize],
            from: from as usize,
            to: to as usize,
            round,
        })
    }
}

pub fn record_numbers(record: &Record) -> RecordNumbers {
    let call = match record.call {
        Call::NotCalled => 0,
        Call::Opened => 1,
        Call::By(caller) => caller as u64 + 2,
    };
    let freed = match record.freed {
        Freed::NotFree => 0,
        Freed::Itself => 1,
        Freed::By(freer) => freer as u64 + 2,
    };
    let [notify, grant, ack, done] = KINDS.map(|kind| bits(&record.senders(kind)));
    [record.round, call, freed, notify, grant, ack, done]
}

pub fn letter_of(number: u64) -> Letter {
    let byte = |places: u32| number >> places & 255;
    [byte(16), byte(8), byte(0), number >> 24]
}

/// The number of a letter whose parts are as narrow as a number can tell.
pub fn letter_number([kind, from, to, round]: Letter) -> u64 {
    round << 24 | kind << 16 | from << 8 | to
}

pub fn letter(message: &Message) -> Letter {
    let (from, to) = (message.from as u64, message.to as u64);
    [message.kind as u64, from, to, message.round]
}

pub fn step_of(number: u64) -> Step {
    let place = |places: u32| number >> places & LARGEST_PLACE;
    [number >> 48, place(24), place(0)]
}

/// The number of a step whose parts are as narrow as a number can tell.
pub fn step_number([kind, a, b]: Step) -> u64 {
    kind << 48 | a << 24 | b
}

pub fn answer_code(answer: Answer) -> u64 {
    let ending = |verdict: Option<Verdict>| match verdict {
        None => 0,
        Some(Verdict::Deadlocked) => 1,
        Some(Verdict::NotDeadlocked) => 2,
    };
    match answer {
        Answer::Refused(number) => number,
        Answer::Old => 100,
        Answer::Stray => 101,
        Answer::Repeat => 102,
        Answer::Taken(verdict) => 110 + ending(verdict),
        Answer::Opened(verdict) => 120 + ending(verdict),
    }
}
