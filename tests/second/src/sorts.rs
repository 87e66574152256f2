//! The sorts of random scripts, and which script is of which.

use crate::bench::LAST_ROUND;
use crate::drawn_rows;
use crate::forms;
use crate::plan::{Plan, Room};
use crate::prng::Prng;
use crate::refused_graphs;
use crate::script::MOST_IN_A_LIST;
use crate::shapes::Shape::{self, *};
use Sort::*;

enum Sort {
    Run(Plan),
    RefusedGraph,
    AnyRows,
    Malformed,
    OddForm,
}

/// Shapes whose full round fits many times into a script.
pub const SMALL: &[Shape] = &[Few, Ring, Chain, Star, Tree, Islands, Layers, Sparse];
const ALL: &[Shape] = &[
    Few, Ring, Chain, Star, Tree, Islands, Layers, Sparse, Dense, Limit,
];

pub const CALM: Plan = Plan {
    shapes: SMALL,
    room: Room::Good,
    rounds: 4,
    steps: MOST_IN_A_LIST as usize,
    loss: 0,
    repeat: 0,
    late: 0,
    overlap: 0,
    noise: 0,
    stride: 1,
    rounds_above: 0,
};

/// For scripts whose point is not the run.
const SHORT: Plan = Plan {
    shapes: &[Few],
    noise: 10,
    steps: 40,
    ..CALM
};

/// Taken in turn, so that even a few scripts have every sort. Those with most to show are there twice, once in each
/// half of the list.
#[rustfmt::skip]
const SORTS: [(&str, Sort); 20] = [
    ("whole rounds", Run(CALM)),
    ("losses", Run(Plan { rounds: 10, loss: 30, stride: 3, ..CALM })),
    ("repeats", Run(Plan { repeat: 40, ..CALM })),
    ("late", Run(Plan { rounds: 10, late: 20, overlap: 30, stride: 2, ..CALM })),
    ("noise", Run(Plan { noise: 40, ..CALM })),
    ("tiny room", Run(Plan { room: Room::Tiny, rounds: 6, steps: 60, repeat: 10, noise: 10, ..CALM })),
    ("exact room", Run(Plan { room: Room::Exact, rounds: 5, overlap: 5, ..CALM })),
    ("refused graph", RefusedGraph),
    ("any rows", AnyRows),
    ("malformed", Malformed),

    ("whole rounds", Run(CALM)),
    ("many rounds", Run(Plan { shapes: &[Dense], rounds: 200, steps: 4_500, ..CALM })),
    ("near the limit", Run(Plan { shapes: &[Dense, Limit], rounds: 2, loss: 1, repeat: 10, ..CALM })),
    ("last rounds", Run(Plan { rounds: 6, noise: 20, stride: 2, rounds_above: LAST_ROUND - 3, ..CALM })),
    ("no steps", Run(Plan { steps: 0, ..CALM })),
    ("mixture", Run(Plan {
        shapes: ALL, rounds: 12, steps: 2_000, loss: 10, repeat: 20, late: 20, overlap: 5, noise: 10, stride: 5, ..CALM
    })),
    ("odd form", OddForm),
    ("refused graph", RefusedGraph),
    ("any rows", AnyRows),
    ("malformed", Malformed),
];

/// The sort and the bytes of one script; seed and index settle both.
pub fn draw(seed: u64, index: u64) -> (&'static str, Vec<u8>) {
    let rng = &mut Prng::for_script(seed, index);
    let sorts = SORTS.len() as u64;
    let (name, sort) = &SORTS[(index % sorts) as usize];
    let turn = index / (sorts / 2);
    let script = match sort {
        Run(plan) => plan.script(rng),
        RefusedGraph => {
            let rows = refused_graphs::refused(rng, turn);
            SHORT.script_on(rng, rows)
        }
        AnyRows => {
            let rows = drawn_rows::any(rng);
            SHORT.script_on(rng, rows)
        }
        Malformed | OddForm => SHORT.script(rng),
    };
    let input = match sort {
        Malformed => forms::malformed(rng, &script, turn),
        OddForm => forms::odd(rng, &script, turn / 2),
        _ => script.text().into_bytes(),
    };
    (name, input)
}
