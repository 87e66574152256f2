//! Messages between nodes.

use std::fmt;

#[derive(Clone, Copy, PartialEq, Eq, PartialOrd, Ord)]
pub enum Kind {
    Notify,
    Grant,
    Ack,
    Done,
}

/// In the order in which they join the list, which is also that of their numbers.
pub const KINDS: [Kind; 4] = [Kind::Notify, Kind::Grant, Kind::Ack, Kind::Done];

/// Messages of one node and round are ordered as those of one step join the list: by kind, then by receiver.
#[derive(Clone, Copy, PartialEq, Eq, PartialOrd, Ord)]
pub struct Message {
    pub kind: Kind,
    pub from: usize,
    pub to: usize,
    pub round: u64,
}

impl fmt::Display for Message {
    fn fmt(&self, f: &mut fmt::Formatter) -> fmt::Result {
        let kind = match self.kind {
            Kind::Notify => "NOTIFY",
            Kind::Grant => "GRANT",
            Kind::Ack => "ACK",
            Kind::Done => "DONE",
        };
        write!(f, "{kind} {} {} {}", self.from, self.to, self.round)
    }
}
