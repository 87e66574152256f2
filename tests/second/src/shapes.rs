//! Random waits, by shape: who waits on whom, before anything is said of conditions.

use crate::graph::{NodeSet, MOST_EDGES};
use crate::prng::Prng;

#[derive(Clone, Copy, PartialEq, Eq)]
pub enum Shape {
    /// One to three nodes.
    Few,
    Ring,
    Chain,
    Star,
    Tree,
    /// Everybody waits on some of his own few neighbours.
    Islands,
    /// Everybody waits on some of the next layer.
    Layers,
    Sparse,
    Dense,
    /// As many edges as there may be, or hardly fewer.
    Limit,
}

/// OUT of every node, within the limit of edges.
pub fn draw(rng: &mut Prng, shape: Shape) -> Vec<NodeSet> {
    let nodes = nodes(rng, shape);
    let mut out = vec![NodeSet::new(); nodes];
    if shape == Shape::Limit {
        fill(rng, &mut out);
        return out;
    }
    // How often an edge of the shape is there, and how often the edge against it.
    let (forth, back) = *rng.pick(&[(100, 0), (100, 0), (0, 100), (100, 30), (70, 70)]);
    for (waiter, target) in edges(rng, shape, nodes) {
        if rng.chance(forth) {
            add(&mut out, waiter, target);
        }
        if rng.chance(back) {
            add(&mut out, target, waiter);
        }
    }
    for _ in 0..*rng.pick(&[0, 0, 1, 3]) {
        add(&mut out, rng.below(nodes), rng.below(nodes));
    }
    // Without active nodes everything would be deadlocked; how many there are is drawn once a graph.
    let active = *rng.pick(&[0, 10, 10, 30]);
    for waits in &mut out {
        if rng.chance(active) {
            waits.clear();
        }
    }
    out
}

/// Most sizes are small, so that much happens in few steps; some go up to 64 nodes.
fn nodes(rng: &mut Prng, shape: Shape) -> usize {
    match (shape, rng.below(10)) {
        (Shape::Few, _) => rng.between(1, 3),
        (Shape::Dense, _) => rng.between(4, 24),
        // Fewer nodes have not enough edges.
        (Shape::Limit, _) => *rng.pick(&[25, 26, 30, 40, 64, 64]),
        (_, 0..=5) => rng.between(2, 8),
        (_, 6..=8) => rng.between(2, 24),
        _ => *rng.pick(&[32, 48, 63, 64]),
    }
}

/// The edges that make the shape; one from a node to itself is never added.
fn edges(rng: &mut Prng, shape: Shape, nodes: usize) -> Vec<(usize, usize)> {
    let width = rng.between(2, 6);
    let percent = *rng.pick(&[40, 60, 80, 95, 100]);
    match shape {
        Shape::Ring => (0..nodes).map(|k| (k, (k + 1) % nodes)).collect(),
        Shape::Chain => (1..nodes).map(|k| (k - 1, k)).collect(),
        Shape::Star => (0..nodes).map(|k| (nodes / 2, k)).collect(),
        Shape::Tree => (1..nodes).map(|k| (rng.below(k), k)).collect(),
        Shape::Islands | Shape::Layers => {
            let ahead = usize::from(shape == Shape::Layers);
            let three_each = (0..3 * nodes).map(|k| k / 3);
            let pairs = three_each.map(|k| (k, (k / width + ahead) * width + rng.below(width)));
            pairs.filter(|(_, target)| *target < nodes).collect()
        }
        Shape::Dense => {
            let pairs = (0..nodes).flat_map(|a| (0..nodes).map(move |b| (a, b)));
            pairs.filter(|_| rng.chance(percent)).collect()
        }
        // Few and Sparse: no shape at all.
        _ => {
            let some = 0..rng.between(nodes / 2, 2 * nodes);
            some.map(|_| (rng.below(nodes), rng.below(nodes))).collect()
        }
    }
}

/// Up to the limit or just below it, with a few nodes left active.
fn fill(rng: &mut Prng, out: &mut [NodeSet]) {
    let edges = MOST_EDGES - *rng.pick(&[0, 0, 1, 7]);
    let active = rng.below(3);
    while count(out) < edges {
        let waiter = rng.between(active, out.len() - 1);
        add(out, waiter, rng.below(out.len()));
    }
}

fn count(out: &[NodeSet]) -> usize {
    out.iter().map(NodeSet::len).sum()
}

fn add(out: &mut [NodeSet], waiter: usize, target: usize) {
    if waiter != target && count(out) < MOST_EDGES {
        out[waiter].insert(target);
    }
}
