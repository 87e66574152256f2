//! What may come to one controller of 64, by situation: who it waits on, who waits on it, and what it has had.

use second::graph::{bits, Row, ACTIVE};
use second::message::{Kind, Message};

pub const ME: usize = 20;
/// Those that the controller waits on, unless it is active, and those that wait on it.
const OUT: [usize; 8] = [1, 9, 17, 25, 33, 41, 49, 57];
const INTO: [usize; 8] = [4, 11, 18, 25, 32, 39, 46, 60];
const NEITHER: usize = 12;
const ROUND: u64 = 7;

/// The controller's row, what came before, all of it taken, and the message that is timed.
pub struct Situation {
    pub name: String,
    pub row: Row,
    pub before: Vec<Message>,
    pub message: Message,
}

/// A situation without its row.
type Coming = (&'static str, Vec<Message>, Message);

pub fn all() -> Vec<Situation> {
    let mut all = Vec::new();
    for (kind, row, needed) in rows() {
        for (name, before, message) in to_a_row(needed) {
            all.push(Situation {
                name: format!("{kind}: {name}"),
                row,
                before,
                message,
            });
        }
    }
    all
}

/// Rows of each kind, with how many of OUT, in order, free the controller.
fn rows() -> [(&'static str, Row, usize); 3] {
    let halves = [set(&OUT[..4]), set(&OUT[4..])];
    [
        ("active", ACTIVE, 0),
        ("count", [1, 3, set(&OUT), 0, 0, 0], 3),
        ("sets", [2, 0, halves[0], halves[1], 0, 0], 4),
    ]
}

pub fn ins() -> u64 {
    set(&INTO)
}

fn set(members: &[usize]) -> u64 {
    bits(&members.iter().copied().collect())
}

fn of(kind: Kind, from: usize) -> Message {
    Message {
        kind,
        from,
        to: ME,
        round: ROUND,
    }
}

fn of_all(kind: Kind, senders: &[usize]) -> Vec<Message> {
    senders.iter().map(|sender| of(kind, *sender)).collect()
}

fn after(before: &[&[Message]], name: &'static str, message: Message) -> Coming {
    (name, before.concat(), message)
}

/// A controller that waits is freed by so many GRANTs; one that needs none is active.
fn to_a_row(needed: usize) -> Vec<Coming> {
    let called = of_all(Kind::Notify, &INTO[..1]);
    let free = [called.clone(), of_all(Kind::Grant, &OUT[..needed])].concat();
    let mut all = alike(&called, &free);
    if needed > 0 {
        all.extend(waiting(&called, &free, needed));
    }
    all
}

/// What comes to active controllers and to those that wait.
fn alike(called: &[Message], free: &[Message]) -> Vec<Coming> {
    let acks = of_all(Kind::Ack, &INTO[..7]);
    let old = Message {
        round: ROUND - 1,
        ..of(Kind::Notify, INTO[1])
    };
    vec![
        after(&[], "NOTIFY, the first", called[0]),
        after(&[called], "NOTIFY, another", of(Kind::Notify, INTO[1])),
        after(&[free], "ACK, not the last", of(Kind::Ack, INTO[0])),
        after(&[free, &acks], "ACK, the last", of(Kind::Ack, INTO[7])),
        after(&[free], "repeat", called[0]),
        after(&[free], "old", old),
        after(&[free], "stray", of(Kind::Notify, NEITHER)),
    ]
}

fn waiting(called: &[Message], free: &[Message], needed: usize) -> Vec<Coming> {
    let nearly = &free[..needed];
    let dones = of_all(Kind::Done, &OUT[..7]);
    let frees = of(Kind::Grant, OUT[needed - 1]);
    vec![
        after(&[called], "GRANT, not enough", of(Kind::Grant, OUT[0])),
        after(&[nearly], "GRANT that frees", frees),
        after(&[free], "GRANT, free already", of(Kind::Grant, OUT[7])),
        after(&[free], "DONE, not the last", of(Kind::Done, OUT[0])),
        after(&[free, &dones], "DONE, the last", of(Kind::Done, OUT[7])),
    ]
}
