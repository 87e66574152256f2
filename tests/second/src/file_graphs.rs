//! Files by their graph: with none, some or all deadlocked, refused with each number, of given numbers of rows.

use crate::drawn_files::{Kinds, Making::Graph};
use crate::drawn_rows;
use crate::drawn_sheets::good_rows;
use crate::graph::{Row, Rows, ACTIVE};
use crate::prng::Prng;
use crate::reduction::deadlocked;
use crate::refused_graphs::refused_with;
use crate::shapes::Shape;

#[rustfmt::skip]
pub const ACCEPTED: Kinds = &[
    ("with none deadlocked", Graph(|rng| with_stuck(rng, |stuck, _| stuck == 0))),
    ("with some deadlocked", Graph(|rng| with_stuck(rng, |stuck, nodes| (1..nodes).contains(&stuck)))),
    ("with all deadlocked", Graph(|rng| with_stuck(rng, |stuck, nodes| stuck == nodes))),
    ("of many edges", Graph(|rng| drawn_rows::accepted(rng, &[Shape::Dense, Shape::Limit]))),
    ("of rows of any kind", Graph(drawn_rows::any)),
];

#[rustfmt::skip]
pub const REFUSED: Kinds = &[
    ("1", Graph(|rng| {
        let nodes = *rng.pick(&[0, 65, 66, 128, 256, 300]);
        of_rows(rng, nodes)
    })),
    ("2", Graph(|rng| refused_with(rng, 2))),
    ("3", Graph(|rng| refused_with(rng, 3))),
    ("4", Graph(|rng| refused_with(rng, 4))),
    ("5", Graph(|rng| refused_with(rng, 5))),
    ("6", Graph(|rng| refused_with(rng, 6))),
    ("7", Graph(|rng| refused_with(rng, 7))),
    ("8", Graph(|rng| refused_with(rng, 8))),
];

#[rustfmt::skip]
pub const ROWS: Kinds = &[
    ("0", Graph(|rng| of_rows(rng, 0))),
    ("1", Graph(|rng| of_rows(rng, 1))),
    ("63", Graph(|rng| of_rows(rng, 63))),
    ("64", Graph(|rng| of_rows(rng, 64))),
    ("65", Graph(|rng| of_rows(rng, 65))),
    ("hundreds", Graph(|rng| {
        let nodes = rng.between(100, 400);
        of_rows(rng, nodes)
    })),
    ("thousands", Graph(|rng| {
        let nodes = rng.between(1_000, 2_500);
        of_rows(rng, nodes)
    })),
];

/// Accepted rows whose number of deadlocked nodes fits the number of all.
fn with_stuck(rng: &mut Prng, fits: fn(usize, usize) -> bool) -> Rows {
    loop {
        let rows = good_rows(rng);
        let graph = rows.graph();
        if graph.is_ok_and(|graph| fits(deadlocked(&graph).len(), graph.len())) {
            return rows;
        }
    }
}

/// Any number of rows that are good by themselves.
pub fn of_rows(rng: &mut Prng, nodes: usize) -> Rows {
    let rows: Vec<Row> = (0..nodes).map(|me| row(rng, me, nodes)).collect();
    Rows::of(&rows)
}

/// Active, or waiting on one or two of the nodes that a set can name.
fn row(rng: &mut Prng, me: usize, nodes: usize) -> Row {
    let nameable = nodes.min(64);
    let set = 1u64 << rng.below(nameable) | 1 << rng.below(nameable);
    let set = if me < nameable { set & !(1 << me) } else { set };
    match (set, rng.below(3)) {
        (0, _) | (_, 0) => ACTIVE,
        (_, 1) => [1, 1, set, 0, 0, 0],
        _ => [2, 0, 0, set, 0, 0],
    }
}
