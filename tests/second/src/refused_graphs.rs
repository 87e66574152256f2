//! Graphs that are refused: one fault put into an accepted graph, for each of the numbers 1 to 8.

use crate::drawn_rows;
use crate::graph::{Rows, ACTIVE};
use crate::prng::Prng;
use crate::shapes::Shape;
use crate::sorts::SMALL;

/// The numbers in turn; those that are given for several different faults come more often.
const IN_TURN: [u64; 12] = [1, 2, 3, 4, 5, 6, 7, 8, 5, 6, 7, 6];

pub fn refused(rng: &mut Prng, turn: u64) -> Rows {
    refused_with(rng, IN_TURN[turn as usize % IN_TURN.len()])
}

/// Draws until our own judgement gives the number: not every drawn graph has a row that can be spoilt so.
pub fn refused_with(rng: &mut Prng, number: u64) -> Rows {
    let shapes = if number == 8 { &[Shape::Limit] } else { SMALL };
    loop {
        let mut rows = drawn_rows::accepted(rng, shapes);
        spoil(rng, &mut rows, number);
        if rows.graph().is_err_and(|refusal| refusal.number == number) {
            return rows;
        }
    }
}

fn spoil(rng: &mut Prng, rows: &mut Rows, number: u64) {
    let nodes = rows.nodes as usize;
    let me = rng.below(nodes);
    let any_node = 1 << rng.below(nodes);
    let row = rows.row_mut(me);
    let place = rng.between(2, 5);
    match number {
        1 => spoil_counts(rng, rows),
        2 => row[0] = *rng.pick(&[3, 4, 255, 256, 1 << 32, u64::MAX]),
        3 => row[place] |= 1 << rng.between(nodes.min(63), 63),
        4 => row[place] |= 1 << me,
        5 => {
            let past = u64::from(row[2].count_ones()) + 1;
            row[1] = *rng.pick(&[0, 1, past, 64, 1 << 32, u64::MAX]);
        }
        6 => row[place] |= any_node,
        7 => spoil_sets(rng, row),
        // Mostly the first number of edges that is too many.
        _ => row[2] |= *rng.pick(&[any_node, any_node, ((1 << (nodes - 1)) - 1) & !(1 << me)]),
    }
}

fn spoil_counts(rng: &mut Prng, rows: &mut Rows) {
    match rng.below(4) {
        0 => rows.nodes = *rng.pick(&[0, rows.nodes + 1, 65, 256, 1 << 32, 1 << 63, u64::MAX]),
        1 => rows.numbers.push(0),
        2 => rows.numbers.truncate(rows.numbers.len() - 1),
        _ => *rows = Rows::of(&vec![ACTIVE; *rng.pick(&[0, 65, 128])]),
    }
}

/// No set at all, an equal one, or one inside another. The first can be done to any row, the others only where
/// there are sets, so it has the smallest share of the tries.
fn spoil_sets(rng: &mut Prng, row: &mut [u64]) {
    let (from, to) = (rng.between(2, 5), rng.between(2, 5));
    match rng.below(12) {
        0 => row.copy_from_slice(&[2, 0, 0, 0, 0, 0]),
        1..=6 => row[to] = row[from],
        _ => row[to] = row[from] & rng.next(),
    }
}
