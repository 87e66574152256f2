//! Lent benches with steps to take, drawn: in the middle of a run, odd, full, or with something that doesn't exist.

use crate::bench::{self, Bench, DELIVER, LAST_ROUND, MOST_ROOM, OPEN};
use crate::codes::{step_number, RecordNumbers, NUMBERS_A_RECORD};
use crate::drawn_questions;
use crate::lent::LentBench;
use crate::moments;
use crate::odd;
use crate::prng::Prng;
use crate::script::{LARGEST_PLACE, LARGEST_STEP_KIND};
use crate::unknown;

const MOST_STEPS: usize = 24;

/// The bench, and the steps that come next in its run.
fn draw(rng: &mut Prng) -> (LentBench, Vec<bench::Step>) {
    let moment = moments::draw(rng);
    let after = *rng.pick(&[0, 1, 3, 9, 30, 60, 60, 60, 60, 60]);
    let after = unknown::any(rng, after);
    let mut lent = LentBench::of(moment.rows, &moment.bench, &after);
    if rng.chance(1) {
        lengthen(rng, &mut lent);
    }
    if rng.chance(35) {
        bend(rng, &mut lent, &moment.bench);
    }
    if rng.chance(18) {
        spoil(rng, &mut lent);
    }
    if lent.messages.len() as u64 > MOST_ROOM && rng.chance(10) {
        // The list would hold them; the room is less.
        lent.sent = MOST_ROOM + 1;
    }
    (lent, moment.next)
}

pub fn with_a_step(rng: &mut Prng) -> (LentBench, bench::Step) {
    let (lent, next) = draw(rng);
    let step = match next.first() {
        Some(step) if rng.chance(75) => *step,
        _ => any_step(rng, &lent),
    };
    (lent, step)
}

/// The bench, the steps as numbers, and the places for their answers.
pub fn with_steps(rng: &mut Prng) -> (LentBench, Vec<u64>, Vec<u64>) {
    let (lent, mut next) = draw(rng);
    next.truncate(rng.below(MOST_STEPS));
    for _ in 0..rng.below(4) {
        let [kind, a, b] = any_step(rng, &lent);
        let (kind, a, b) = (
            kind & LARGEST_STEP_KIND,
            a & LARGEST_PLACE,
            b & LARGEST_PLACE,
        );
        next.insert(rng.below(next.len() + 1), [kind, a, b]);
    }
    let mut steps: Vec<u64> = next.into_iter().map(step_number).collect();
    if rng.chance(10) {
        let place = rng.below(steps.len() + 1);
        steps.insert(place, rng.next());
    }
    let places = match rng.below(12) {
        0 => steps.len().saturating_sub(1),
        1 => rng.below(steps.len() + 1),
        2..=7 => steps.len(),
        _ => steps.len() + rng.below(6),
    };
    (lent, steps, unknown::any(rng, places))
}

fn any_step(rng: &mut Prng, lent: &LentBench) -> bench::Step {
    let node = drawn_questions::node(rng, &lent.rows);
    let highest = lent.highest.min(LAST_ROUND);
    let round = match rng.below(8) {
        0 => 0,
        1 => highest,
        2 => unknown::past(rng, LAST_ROUND + 1),
        _ => highest + 1,
    };
    let sent = lent.sent.min(MOST_ROOM);
    let message = rng.below(sent as usize + 1) as u64;
    match rng.below(8) {
        0..=2 => [OPEN, node, round],
        3..=5 => [DELIVER, message, rng.next()],
        6 => [DELIVER, unknown::past(rng, sent), rng.next()],
        _ => [unknown::past(rng, 2), node, round],
    }
}

/// About as many places as can be used, or more, nearly or quite full of messages of any kind.
fn lengthen(rng: &mut Prng, lent: &mut LentBench) {
    let length = (MOST_ROOM as usize - 1) + *rng.pick(&[0, 1, 2, 3, 60]);
    let nodes = lent.rows.nodes as usize;
    let free = rng.below(12);
    lent.messages.truncate(lent.sent as usize);
    while lent.highest > 0 && lent.messages.len() + free < length.min(MOST_ROOM as usize) {
        let message = odd::message_number(rng, nodes, lent.highest);
        lent.messages.push(message);
    }
    lent.sent = lent.messages.len() as u64;
    let after = unknown::any(rng, length - lent.messages.len());
    lent.messages.extend(after);
}

/// Odd changes, after which everything still exists.
fn bend(rng: &mut Prng, lent: &mut LentBench, bench: &Bench) {
    let nodes = bench.graph.len();
    for _ in 0..rng.between(1, 3) {
        let node = &bench.graph.nodes[rng.below(nodes)];
        let numbers = record_mut(lent, node.me);
        match rng.below(8) {
            0..=2 => odd::bend(rng, numbers, node, nodes),
            3..=4 => *numbers = odd::record(rng, node, nodes, numbers[0]),
            5 => lent.sent = rng.below(lent.sent as usize + 1) as u64,
            6 => lent.highest = rng.between(lent.highest as usize, LAST_ROUND as usize) as u64,
            _ if lent.sent > 0 => {
                let place = rng.below(lent.sent as usize);
                lent.messages[place] = odd::message_number(rng, nodes, lent.highest);
            }
            _ => {}
        }
    }
}

fn record_mut(lent: &mut LentBench, node: usize) -> &mut RecordNumbers {
    let numbers = &mut lent.records[node * NUMBERS_A_RECORD..][..NUMBERS_A_RECORD];
    numbers.try_into().expect("a record's numbers")
}

/// Puts in one thing that doesn't exist, or that doesn't fit.
fn spoil(rng: &mut Prng, lent: &mut LentBench) {
    let nodes = lent.rows.nodes as usize;
    let highest = lent.highest;
    match rng.below(9) {
        0 => lent.rows = drawn_questions::refused(rng),
        1 => {
            let last = lent.records.len() - 1;
            lent.records.truncate(*rng.pick(&[0, last, last]));
        }
        2 => {
            let more = *rng.pick(&[1, NUMBERS_A_RECORD]);
            lent.records.extend(vec![0; more]);
        }
        3 => lent.highest = unknown::past(rng, LAST_ROUND + 1),
        4 => lent.sent = unknown::past(rng, (lent.messages.len() as u64).min(MOST_ROOM) + 1),
        5 | 6 => {
            let node = rng.below(nodes);
            unknown::record(rng, record_mut(lent, node), nodes, highest);
        }
        _ if lent.sent > 0 => {
            let place = rng.below(lent.sent as usize);
            let number = lent.messages[place];
            lent.messages[place] = unknown::message_number(rng, number, nodes, highest);
        }
        // What lies after the sent messages is nobody's business, whatever it is.
        _ => lent.messages.push(u64::MAX),
    }
}
