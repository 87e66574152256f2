//! Moments of drawn runs: a bench as it stands in the middle of its rounds, and the steps that come next.

use crate::bench::{Bench, Step, LAST_ROUND};
use crate::graph::Rows;
use crate::plan::Plan;
use crate::prng::Prng;
use crate::shapes::Shape::*;
use crate::sorts::{CALM, SMALL};

pub struct Moment {
    pub rows: Rows,
    pub bench: Bench,
    pub next: Vec<Step>,
}

/// A bit of everything that can happen to messages, in few steps.
const RUN: Plan = Plan {
    shapes: &[Few, Few, Ring, Chain, Star, Tree, Sparse],
    rounds: 3,
    steps: 60,
    loss: 8,
    repeat: 12,
    late: 20,
    overlap: 8,
    noise: 8,
    stride: 2,
    ..CALM
};

fn plan(rng: &mut Prng) -> Plan {
    match rng.below(100) {
        0 => Plan {
            shapes: &[Dense, Limit],
            steps: 400,
            loss: 0,
            ..RUN
        },
        1..=3 => Plan {
            rounds_above: LAST_ROUND - 2,
            ..RUN
        },
        4..=13 => Plan {
            shapes: SMALL,
            steps: 120,
            ..RUN
        },
        // Rounds that nothing spoils, so that many of them end.
        14..=33 => Plan {
            loss: 0,
            late: 0,
            overlap: 0,
            noise: 0,
            ..RUN
        },
        _ => RUN,
    }
}

pub fn draw(rng: &mut Prng) -> Moment {
    let script = plan(rng).script(rng);
    let Ok(graph) = script.rows.graph() else {
        unreachable!("a plan's script has an accepted graph");
    };
    let mut bench = Bench::fresh(graph, script.room);
    let (before, next) = script.steps.split_at(rng.below(script.steps.len() + 1));
    for step in before {
        bench.step(*step);
    }
    Moment {
        next: next.to_vec(),
        rows: script.rows,
        bench,
    }
}
