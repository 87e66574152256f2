//! Row numbers drawn at random: conditions of every kind over given waits, and rows of any numbers.

use crate::graph::{bits, NodeSet, Row, Rows, ACTIVE};
use crate::prng::Prng;
use crate::shapes::{self, Shape};

pub fn accepted(rng: &mut Prng, shapes: &[Shape]) -> Rows {
    let shape = *rng.pick(shapes);
    let waits = shapes::draw(rng, shape);
    // How much of OUT the count nodes need: a graph of ORs is seldom deadlocked, one of ANDs often.
    let leaning = *rng.pick(&[[0, 0], [100, 100], [0, 100], [0, 100]]);
    let sets_percent = *rng.pick(&[0, 50, 50, 100]);
    let mut rows = Vec::new();
    for out in &waits {
        rows.push(if out.is_empty() {
            ACTIVE
        } else if rng.chance(sets_percent) {
            sets_row(rng, out)
        } else {
            let share = rng.between(leaning[0], leaning[1]);
            let needed = 1 + (out.len() - 1) * share / 100;
            [1, needed as u64, bits(out), 0, 0, 0]
        });
    }
    Rows::of(&rows)
}

/// One to four sets at any of the four places, overlapping or not, none inside another.
fn sets_row(rng: &mut Prng, out: &NodeSet) -> Row {
    let overlap = *rng.pick(&[0, 30, 60]);
    let mut places = [2, 3, 4, 5];
    rng.shuffle(&mut places);
    let places = &places[..rng.between(1, 4)];
    let mut row = [2, 0, 0, 0, 0, 0];
    for member in out {
        row[*rng.pick(places)] |= 1 << member;
        for place in places {
            row[*place] |= u64::from(rng.chance(overlap)) << member;
        }
    }
    // A set inside another goes, one after the other so that of two equal ones one stays; the union stays.
    for a in 2..6 {
        if (2..6).any(|b| a != b && row[a] & !row[b] == 0) {
            row[a] = 0;
        }
    }
    row
}

/// A few rows of small numbers of any kind: close to the border between accepted and refused.
pub fn any(rng: &mut Prng) -> Rows {
    let nodes = rng.between(1, 3);
    let mut rows = Vec::new();
    for me in 0..nodes {
        let kind = *rng.pick(&[0, 1, 1, 2, 2, 2, 3]);
        let sets = [0, 1, 4, 4][kind];
        let threshold = if kind == 1 {
            rng.below(3)
        } else {
            usize::from(rng.chance(5))
        };
        let mut row = [kind as u64, threshold as u64, 0, 0, 0, 0];
        for (place, set) in row[2..].iter_mut().enumerate() {
            let others = ((1 << nodes) - 1) & !(1 << me);
            let allowed = if rng.chance(8) { 15 } else { others };
            if rng.chance(if place < sets { 60 } else { 4 }) {
                *set = rng.next() & allowed;
            }
        }
        rows.push(row);
    }
    Rows::of(&rows)
}
