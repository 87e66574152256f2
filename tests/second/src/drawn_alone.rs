//! One node by itself, drawn: as it stands in the middle of a run, odd, or with something that doesn't exist.

use crate::alone::Alone;
use crate::bench::LAST_ROUND;
use crate::codes::{letter, record_numbers, Letter};
use crate::drawn_questions;
use crate::graph::{bits, members, Node, NUMBERS_A_ROW};
use crate::moments;
use crate::odd;
use crate::prng::Prng;
use crate::unknown;

/// Node counts that aren't accepted; some would be in their lowest bits alone.
const NO_COUNTS: [u64; 7] = [0, 65, 256, 256 + 3, 1 << 32 | 3, 1 << 63, u64::MAX];

/// The node, and a message for it.
pub fn draw(rng: &mut Prng) -> (Alone, Letter) {
    let (mut alone, mut letter) = match rng.chance(12) {
        true => with_a_refused_row(rng),
        false => in_a_run(rng),
    };
    // Sometimes more than once, since it is settled which refusal comes first.
    while rng.chance(20) {
        spoil(rng, &mut alone, &mut letter);
    }
    (alone, letter)
}

/// A round to open the node in, mostly one that can be opened.
pub fn round(rng: &mut Prng, alone: &Alone) -> u64 {
    let kept = alone.record[0].min(LAST_ROUND);
    let later = rng.between(kept as usize, LAST_ROUND as usize) as u64;
    match rng.below(12) {
        0 => 0,
        1 => kept,
        2 => rng.below(kept as usize + 1) as u64,
        3 => LAST_ROUND,
        4 => unknown::past(rng, LAST_ROUND + 1),
        5 | 6 => later,
        _ => kept + 1,
    }
}

fn handed(rng: &mut Prng, nodes: usize, node: &Node, row: &[u64]) -> Alone {
    Alone {
        nodes: nodes as u64,
        me: node.me as u64,
        row: row.to_vec(),
        into: bits(&node.into),
        record: [0; 7],
        sends: [(); 4].map(|()| rng.next() >> rng.below(64)),
    }
}

/// The last one often, whose bit in a set is the highest.
fn any_node(rng: &mut Prng, nodes: usize) -> usize {
    match rng.chance(20) {
        true => nodes - 1,
        false => rng.below(nodes),
    }
}

fn in_a_run(rng: &mut Prng) -> (Alone, Letter) {
    let mut moment = moments::draw(rng);
    let nodes = moment.bench.graph.len();
    let sent = &moment.bench.sent;
    let real = (!sent.is_empty() && rng.chance(60)).then(|| *rng.pick(sent));
    let me = real.map_or_else(|| any_node(rng, nodes), |message| message.to);
    let node = &mut moment.bench.graph.nodes[me];
    if rng.chance(10) {
        // A node by itself can't tell whether its IN fits any graph.
        node.into = members(odd::any_set(rng, nodes));
    }
    let row = &moment.rows.numbers[me * NUMBERS_A_ROW..][..NUMBERS_A_ROW];
    let mut alone = handed(rng, nodes, node, row);
    alone.record = record_numbers(&moment.bench.records[me]);
    match rng.below(10) {
        0 | 1 => odd::bend(rng, &mut alone.record, node, nodes),
        2..=5 => alone.record = odd::record(rng, node, nodes, alone.record[0].max(1)),
        _ => {}
    }
    let letter = match real {
        Some(message) if rng.chance(80) => letter(&message),
        _ => odd::letter(rng, node, &alone.record, nodes),
    };
    (alone, letter)
}

/// A node whose own row is refused, with 2 to 7; the rest is good or odd.
fn with_a_refused_row(rng: &mut Prng) -> (Alone, Letter) {
    loop {
        let rows = drawn_questions::refused(rng);
        let refusal = match rows.graph() {
            Err(refusal) if (2..=7).contains(&refusal.number) => refusal,
            _ => continue,
        };
        let nodes = rows.nodes as usize;
        let Ok(mut node) = Node::read(refusal.row, &[0; NUMBERS_A_ROW], nodes) else {
            unreachable!("an active node's row is good");
        };
        node.into = members(odd::any_set(rng, nodes));
        let row = &rows.numbers[refusal.row * NUMBERS_A_ROW..][..NUMBERS_A_ROW];
        let mut alone = handed(rng, nodes, &node, row);
        alone.record = odd::record(rng, &node, nodes, 1);
        let letter = odd::letter(rng, &node, &alone.record, nodes);
        return (alone, letter);
    }
}

/// Puts in one thing that doesn't exist.
fn spoil(rng: &mut Prng, alone: &mut Alone, letter: &mut Letter) {
    // It may be spoilt already.
    let nodes = alone.nodes.clamp(1, 64) as usize;
    match rng.below(10) {
        0 => alone.nodes = *rng.pick(&NO_COUNTS),
        1 => alone.row.truncate(rng.below(NUMBERS_A_ROW)),
        2 => alone.row.push(0),
        3 => alone.me = unknown::past(rng, nodes as u64),
        4 => alone.into = unknown::set(rng, alone.into, nodes),
        5..=7 => unknown::record(rng, &mut alone.record, nodes, LAST_ROUND),
        _ => unknown::letter(rng, letter, nodes, LAST_ROUND),
    }
}
