//! Files with several faults, of which the right one must be named: lines come before rows, and the first line first.

use crate::drawn_files::{Kinds, Making::Before, Making::GraphBefore};
use crate::drawn_sheets::a_row;
use crate::file_graphs::of_rows;
use crate::graph::Rows;
use crate::prng::Prng;
use crate::refused_graphs::refused_with;
use crate::sheet::{Line, Sheet};

#[rustfmt::skip]
pub const KINDS: Kinds = &[
    ("a bad row then a bad line", GraphBefore(refused, |rng, sheet| {
        let node = (sheet.lines.len() - 1).to_string();
        let fields = [&node, "0", "0", "", "", "", ""];
        sheet.lines.push(Line::of(fields.map(String::from).to_vec()));
        spoil_last(rng, sheet)
    })),
    ("a bad line and a bad row", GraphBefore(refused, spoil_any)),
    ("two bad lines", Before(|rng, sheet| {
        spoil_any(rng, sheet)?;
        spoil_any(rng, sheet)
    })),
    ("a bad line of too many", GraphBefore(too_many, spoil_any)),
    ("the last bad line of too many", GraphBefore(too_many, spoil_last)),
];

/// With a number of one of its rows, or of its edges.
fn refused(rng: &mut Prng) -> Rows {
    let number = *rng.pick(&[2, 2, 3, 3, 4, 4, 5, 5, 6, 6, 7, 7, 8]);
    refused_with(rng, number)
}

fn too_many(rng: &mut Prng) -> Rows {
    let nodes = rng.between(65, 120);
    of_rows(rng, nodes)
}

fn spoil_any(rng: &mut Prng, sheet: &mut Sheet) -> Option<()> {
    let row = a_row(rng, sheet);
    spoil(rng, row);
    Some(())
}

fn spoil_last(rng: &mut Prng, sheet: &mut Sheet) -> Option<()> {
    spoil(rng, sheet.lines.last_mut()?);
    Some(())
}

/// May be done twice to a line.
fn spoil(rng: &mut Prng, line: &mut Line) {
    let fields = &mut line.fields;
    match rng.below(5) {
        0 => fields.truncate(6),
        1 => fields.push(String::new()),
        2 => fields[2].push(' '),
        3 => fields[5] += " 64",
        _ => fields[0] = String::from("1000"),
    }
}
