//! One node by itself, which is told the node count: its refusals, an opening and a delivery on lent numbers.

use crate::bench::{Answer, LAST_ROUND};
use crate::codes::{record_numbers, Known, Letter, RecordNumbers, Strange};
use crate::graph::{count_is_bad, members, Node, Refusal, NUMBERS_A_ROW};
use crate::message::{Message, KINDS};
use crate::node::{self, Change, Delivery, Record};

pub struct Alone {
    pub nodes: u64,
    pub me: u64,
    pub row: Vec<u64>,
    pub into: u64,
    pub record: RecordNumbers,
    /// The receivers of each kind of message, for the node to write.
    pub sends: [u64; KINDS.len()],
}

impl Alone {
    pub fn open(&mut self, round: u64) -> Result<Answer, Refusal> {
        let node = self.node()?;
        let record = self.known_record().map_err(|_| Refusal::plain(13))?;
        if round == 0 || round > LAST_ROUND || round <= record.round {
            return Err(Refusal::plain(10));
        }
        let verdict = self.put_in_force(node::open(&node, round));
        Ok(Answer::Opened(verdict))
    }

    pub fn deliver(&mut self, letter: Letter) -> Result<Answer, Refusal> {
        let node = self.node()?;
        let record = self.known_record().map_err(|_| Refusal::plain(13))?;
        let message = self.message(letter).map_err(|_| Refusal::plain(13))?;
        Ok(match node::deliver(&node, &record, message) {
            Delivery::Old => Answer::Old,
            Delivery::Stray => Answer::Stray,
            Delivery::Repeat => Answer::Repeat,
            Delivery::Taken(change) => Answer::Taken(self.put_in_force(change)),
        })
    }

    /// What 13 is given for, once nothing earlier is; an opening has no letter.
    pub fn strange(&self, letter: Option<Letter>) -> Option<Strange> {
        let of_record = self.known_record().err();
        of_record.or_else(|| letter.and_then(|letter| self.message(letter).err()))
    }

    /// 1, then 9 for its own number, then its row's 2 to 7.
    fn node(&self) -> Result<Node, Refusal> {
        if count_is_bad(self.nodes) || self.row.len() != NUMBERS_A_ROW {
            return Err(Refusal::plain(1));
        }
        if self.me >= self.nodes {
            return Err(Refusal::plain(9));
        }
        let mut node = Node::read(self.me as usize, &self.row, self.nodes as usize)?;
        node.into = members(self.into);
        Ok(node)
    }

    fn known(&self) -> Known {
        Known {
            nodes: self.nodes as usize,
            last_round: LAST_ROUND,
        }
    }

    fn known_record(&self) -> Result<Record, Strange> {
        if !self.known().has_all(self.into) {
            return Err("IN");
        }
        self.known().record(&self.record)
    }

    fn message(&self, letter: Letter) -> Result<Message, Strange> {
        self.known().message(letter)
    }

    fn put_in_force(&mut self, change: Change) -> Option<node::Verdict> {
        self.record = record_numbers(&change.record);
        self.sends = [0; KINDS.len()];
        for message in change.sends {
            self.sends[message.kind as usize] |= 1 << message.to;
        }
        change.verdict
    }
}
