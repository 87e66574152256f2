//! Odd things that exist: records and messages that no run comes to, of nodes, kinds and rounds that there are.

use crate::bench::LAST_ROUND;
use crate::codes::{letter_number, Letter, RecordNumbers};
use crate::graph::{bits, members, Node, NodeSet};
use crate::message::KINDS;
use crate::prng::Prng;

pub fn any_set(rng: &mut Prng, nodes: usize) -> u64 {
    rng.next() & (u64::MAX >> (64 - nodes))
}

/// Often all that is awaited but one is in, or all of it, so that the next message makes it due or finds it due before.
pub fn record(rng: &mut Prng, node: &Node, nodes: usize, round: u64) -> RecordNumbers {
    let (into, out) = (&node.into, &node.out);
    let [notify, grant, ack, done] = [into, out, into, out].map(|from| senders(rng, from, nodes));
    [
        round,
        cause(rng, nodes),
        cause(rng, nodes),
        notify,
        grant,
        ack,
        done,
    ]
}

/// Changes one of the numbers but the round.
pub fn bend(rng: &mut Prng, numbers: &mut RecordNumbers, node: &Node, nodes: usize) {
    let odd = record(rng, node, nodes, numbers[0]);
    let place = rng.between(1, numbers.len() - 1);
    numbers[place] = odd[place];
}

fn cause(rng: &mut Prng, nodes: usize) -> u64 {
    match rng.below(3) {
        2 => 2 + rng.below(nodes) as u64,
        other => other as u64,
    }
}

fn senders(rng: &mut Prng, neighbours: &NodeSet, nodes: usize) -> u64 {
    let all = bits(neighbours);
    match rng.below(7) {
        0 => 0,
        1 => all,
        2..=4 => all & !(1 << any_of(rng, neighbours, nodes)),
        5 => all & rng.next(),
        _ => any_set(rng, nodes),
    }
}

/// One of the given nodes, or any where none are given.
pub fn any_of(rng: &mut Prng, given: &NodeSet, nodes: usize) -> usize {
    let given: Vec<usize> = given.iter().copied().collect();
    match given.is_empty() {
        true => rng.below(nodes),
        false => *rng.pick(&given),
    }
}

/// A message from a neighbour, mostly one that the node hasn't had in its round.
pub fn letter(rng: &mut Prng, node: &Node, record: &RecordNumbers, nodes: usize) -> Letter {
    let neighbours = |kind: usize| if kind % 2 == 0 { &node.into } else { &node.out };
    let kinds: Vec<usize> = (0..KINDS.len())
        .filter(|kind| !neighbours(*kind).is_empty())
        .collect();
    let kind = match kinds.is_empty() {
        true => rng.below(KINDS.len()),
        false => *rng.pick(&kinds),
    };
    let missing = neighbours(kind) - &members(record[3 + kind]);
    let from = match rng.below(10) {
        0 => rng.below(nodes),
        1 | 2 => any_of(rng, neighbours(kind), nodes),
        _ if missing.is_empty() => any_of(rng, neighbours(kind), nodes),
        _ => any_of(rng, &missing, nodes),
    };
    let to = if rng.chance(95) {
        node.me
    } else {
        rng.below(nodes)
    };
    let round = match rng.below(12) {
        0 => record[0] + 1,
        1 => record[0].saturating_sub(1),
        2 => rng.below(LAST_ROUND as usize) as u64,
        _ => record[0],
    };
    [
        kind as u64,
        from as u64,
        to as u64,
        round.clamp(1, LAST_ROUND),
    ]
}

/// A message of any kind between any two nodes, of a round opened before; there must be one.
pub fn message_number(rng: &mut Prng, nodes: usize, highest: u64) -> u64 {
    let (from, to) = (rng.below(nodes) as u64, rng.below(nodes) as u64);
    let round = rng.between(1, highest as usize) as u64;
    letter_number([rng.below(KINDS.len()) as u64, from, to, round])
}
