//! Rows drawn so that some nodes are deadlocked and the others free, and wait on each other: a path may lead from a deadlocked
//! node back to it or not, and through free nodes or not.

use crate::graph::{bits, NodeSet, Row, Rows, ACTIVE};
use crate::prng::Prng;

pub fn accepted(rng: &mut Prng) -> Rows {
    let nodes = *rng.pick(&[3, 4, 5, 6, 8, 12, 24, 64]);
    of(rng, nodes)
}

pub fn of(rng: &mut Prng, nodes: usize) -> Rows {
    let mut names: Vec<usize> = (0..nodes).collect();
    rng.shuffle(&mut names);
    let (stuck, free) = names.split_at(rng.between(2, nodes - 1));
    let mut rows = vec![ACTIVE; nodes];
    let rings = *rng.pick(&[0, 20, 60]);
    for (k, me) in stuck.iter().enumerate() {
        // Everybody needs another who is never freed. The first two make a ring, and the others lead to it.
        let mut needed = a_few(rng, free);
        needed.insert(stuck[if k == 0 { 1 } else { rng.below(k) }]);
        if rng.chance(rings) {
            needed.append(&mut a_few(rng, stuck));
            needed.remove(me);
        }
        rows[*me] = needs_all(rng, &needed);
    }
    // The first of the free ones is active, and one that is free before is enough for each of the others.
    for (k, me) in free.iter().enumerate().skip(1) {
        let enough = free[rng.below(k)];
        let others = a_few(rng, stuck);
        rows[*me] = needs_one(rng, enough, &others);
    }
    Rows::of(&rows)
}

fn a_few(rng: &mut Prng, nodes: &[usize]) -> NodeSet {
    let count = rng.below(3);
    (0..count).map(|_| *rng.pick(nodes)).collect()
}

fn needs_all(rng: &mut Prng, needed: &NodeSet) -> Row {
    match rng.chance(50) {
        true => [1, needed.len() as u64, bits(needed), 0, 0, 0],
        false => [2, 0, 0, bits(needed), 0, 0],
    }
}

/// The one node is enough; so is any of the others, or all of them.
fn needs_one(rng: &mut Prng, enough: usize, others: &NodeSet) -> Row {
    match rng.chance(50) {
        true => [1, 1, 1 << enough | bits(others), 0, 0, 0],
        false => [2, 0, 1 << enough, 0, bits(others), 0],
    }
}
