//! Graphs of 64 nodes to be timed on, by shape.

use crate::conditions::{all_of, any_of, counted_all_of, rows, sets_of, some_of, Condition};
use second::graph::{Rows, MOST_EDGES};
use second::prng::Prng;
use std::ops::Range;

pub const NODES: usize = 64;
/// As many edges a node as the limit gives to all alike.
const WIDTH: usize = MOST_EDGES / NODES;
/// The node of a wide graph that nobody waits on.
pub const APART: usize = NODES - 1;

/// A name for the table, and how a graph of the shape is drawn.
pub type Shape = (&'static str, fn(&mut Prng) -> Rows);

pub const SHAPES: [Shape; 10] = [
    ("counts, drawn", |rng| drawn(rng, some_of)),
    ("sets, drawn", |rng| drawn(rng, sets_of)),
    ("chains, freed upwards", |rng| {
        chain(rng, all_of, |place| place)
    }),
    ("chains of counts, freed downwards", |rng| {
        chain(rng, counted_all_of, downwards)
    }),
    ("chains of sets, freed downwards", |rng| {
        chain(rng, all_of, downwards)
    }),
    ("chains, freed in any order", shuffled_chain),
    ("rings", rings),
    ("layers", layers),
    ("stars", stars),
    ("512 edges, all kinds", full),
];

/// Every node waits on up to eight others, but for a tenth that are active.
fn drawn(rng: &mut Prng, condition: Condition) -> Rows {
    let outs: Vec<u64> = (0..NODES)
        .map(|me| if rng.chance(10) { 0 } else { some(rng, me) })
        .collect();
    rows(rng, &outs, condition)
}

/// Fewer than eight where one is drawn twice; never the node itself.
fn some(rng: &mut Prng, me: usize) -> u64 {
    let drawn = (0..WIDTH).map(|_| 1 << rng.below(NODES));
    drawn.fold(0, |set: u64, node| set | node) & !(1 << me)
}

/// Freed one after the other: each needs all of the one to eight before it, and the first is active.
fn chain(rng: &mut Prng, condition: Condition, node_at: impl Fn(usize) -> usize) -> Rows {
    let width = rng.between(1, WIDTH);
    let mut outs = vec![0; NODES];
    for place in 0..NODES {
        for before in place.saturating_sub(width)..place {
            outs[node_at(place)] |= 1 << node_at(before);
        }
    }
    rows(rng, &outs, condition)
}

/// The worst order for one that goes over the nodes from the lowest up: each time it frees one.
fn downwards(place: usize) -> usize {
    NODES - 1 - place
}

fn shuffled_chain(rng: &mut Prng) -> Rows {
    let mut order: Vec<usize> = (0..NODES).collect();
    rng.shuffle(&mut order);
    let condition = *rng.pick(&[all_of as Condition, counted_all_of]);
    chain(rng, condition, |place| order[place])
}

/// Rings side by side, some of them with an active node.
fn rings(rng: &mut Prng) -> Rows {
    let length = *rng.pick(&[2, 4, 16, 64]);
    let next = |me: usize| me / length * length + (me + 1) % length;
    let outs: Vec<u64> = (0..NODES)
        .map(|me| if rng.chance(5) { 0 } else { 1 << next(me) })
        .collect();
    rows(rng, &outs, any_of)
}

/// Eight layers of eight: everybody waits on all of the layer above it, or everybody on all of the layer below.
fn layers(rng: &mut Prng) -> Rows {
    let upwards = rng.chance(50);
    let layer = |number: usize| 0xff << (8 * number);
    let out = |me: usize| match (me / 8, upwards) {
        (7, true) | (0, false) => 0,
        (own, true) => layer(own + 1),
        (own, false) => layer(own - 1),
    };
    let outs: Vec<u64> = (0..NODES).map(out).collect();
    rows(rng, &outs, any_of)
}

/// A middle that waits on everybody, and some that wait on the middle.
fn stars(rng: &mut Prng) -> Rows {
    let middle = rng.below(NODES);
    let waiting = rng.between(0, 100);
    let mut outs: Vec<u64> = (0..NODES)
        .map(|_| u64::from(rng.chance(waiting)) << middle)
        .collect();
    outs[middle] = !(1 << middle);
    rows(rng, &outs, any_of)
}

/// As many edges as there may be, and a few nodes that are active.
fn full(rng: &mut Prng) -> Rows {
    let mut outs = vec![0; NODES];
    let active = rng.between(1, 8);
    fill(rng, &mut outs, active..NODES, NODES);
    rows(rng, &outs, any_of)
}

/// A round from node 0 takes in every one of these 512 edges. The last node but one is active, everybody below it waits on
/// the next node and on others, and the last node, active too, stands apart: a round of its own sends nothing.
pub fn wide(rng: &mut Prng, condition: Condition) -> Rows {
    let waiting = APART - 1;
    let mut outs: Vec<u64> = (0..waiting).map(|me| 1 << (me + 1)).collect();
    outs.resize(NODES, 0);
    fill(rng, &mut outs, 0..waiting, APART);
    rows(rng, &outs, condition)
}

/// Adds edges from the waiting nodes to any below the given one, up to the limit.
fn fill(rng: &mut Prng, outs: &mut [u64], waiting: Range<usize>, targets: usize) {
    let mut edges: u32 = outs.iter().map(|out| out.count_ones()).sum();
    while edges < MOST_EDGES as u32 {
        let waiter = rng.between(waiting.start, waiting.end - 1);
        let target = rng.below(targets);
        if waiter != target && outs[waiter] >> target & 1 == 0 {
            outs[waiter] |= 1 << target;
            edges += 1;
        }
    }
}
