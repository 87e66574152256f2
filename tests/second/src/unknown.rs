//! Numbers that name nothing: nodes, kinds and rounds that don't exist, put where they are wanted.

use crate::codes::{letter_number, letter_of, Letter, RecordNumbers};
use crate::message::KINDS;
use crate::prng::Prng;

/// A number that isn't below the limit. Some are below it in their lowest bits, which a careless reader might look at alone.
pub fn past(rng: &mut Prng, limit: u64) -> u64 {
    let within = rng.below(limit.max(1) as usize) as u64;
    let numbers = [
        limit,
        limit,
        limit + 1,
        255,
        256 + within,
        1 << 16 | within,
        1 << 32 | within,
        1 << 63,
        u64::MAX,
        rng.next(),
    ];
    (*rng.pick(&numbers)).max(limit)
}

/// Any numbers, of all lengths.
pub fn any(rng: &mut Prng, length: usize) -> Vec<u64> {
    (0..length).map(|_| rng.next() >> rng.below(64)).collect()
}

/// The set with a member that is no node; of 64 nodes there is none.
pub fn set(rng: &mut Prng, set: u64, nodes: usize) -> u64 {
    match nodes {
        64 => set,
        _ => set | 1 << rng.between(nodes, 63),
    }
}

pub fn record(rng: &mut Prng, numbers: &mut RecordNumbers, nodes: usize, last_round: u64) {
    let place = rng.below(numbers.len());
    numbers[place] = match place {
        0 => past(rng, last_round + 1),
        1 | 2 => past(rng, nodes as u64 + 2),
        _ => set(rng, numbers[place], nodes),
    };
}

pub fn letter(rng: &mut Prng, letter: &mut Letter, nodes: usize, last_round: u64) {
    match rng.below(5) {
        0 => letter[0] = past(rng, KINDS.len() as u64),
        1 => letter[1] = past(rng, nodes as u64),
        2 => letter[2] = past(rng, nodes as u64),
        3 => letter[3] = 0,
        _ => letter[3] = past(rng, last_round + 1),
    }
}

/// As a letter is spoilt, with the parts cut as narrow as a message's number has them, or any number.
pub fn message_number(rng: &mut Prng, number: u64, nodes: usize, last_round: u64) -> u64 {
    if rng.chance(20) {
        return rng.next();
    }
    let mut spoilt = letter_of(number);
    letter(rng, &mut spoilt, nodes, last_round);
    let [kind, from, to, round] = spoilt;
    letter_number([kind & 255, from & 255, to & 255, round & ((1 << 40) - 1)])
}
