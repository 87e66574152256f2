//! Rows for nodes that wait on given others.

use second::graph::{members, Row, Rows, ACTIVE};
use second::prng::Prng;

/// A condition over a set that isn't empty.
pub type Condition = fn(&mut Prng, u64) -> Row;

pub fn one_of(_: &mut Prng, out: u64) -> Row {
    [1, 1, out, 0, 0, 0]
}

pub fn all_of(_: &mut Prng, out: u64) -> Row {
    [2, 0, out, 0, 0, 0]
}

pub fn counted_all_of(_: &mut Prng, out: u64) -> Row {
    [1, u64::from(out.count_ones()), out, 0, 0, 0]
}

pub fn some_of(rng: &mut Prng, out: u64) -> Row {
    let needed = rng.between(1, out.count_ones() as usize);
    [1, needed as u64, out, 0, 0, 0]
}

/// The members dealt out to one to four sets; sets that share nobody never lie inside each other.
pub fn sets_of(rng: &mut Prng, out: u64) -> Row {
    let sets = rng.between(1, 4);
    let mut row = [2, 0, 0, 0, 0, 0];
    for member in members(out) {
        row[2 + rng.below(sets)] |= 1 << member;
    }
    row
}

pub fn any_of(rng: &mut Prng, out: u64) -> Row {
    let condition: Condition = *rng.pick(&[some_of as Condition, sets_of]);
    condition(rng, out)
}

/// Nodes that wait on nobody are active.
pub fn rows(rng: &mut Prng, outs: &[u64], condition: Condition) -> Rows {
    let row = |out: &u64| match out {
        0 => ACTIVE,
        _ => condition(rng, *out),
    };
    Rows::of(&outs.iter().map(row).collect::<Vec<Row>>())
}
