//! Good rows for a sheet to begin with, and places in a sheet to change.

use crate::drawn_knots;
use crate::drawn_rows;
use crate::graph::Rows;
use crate::prng::Prng;
use crate::shapes::Shape;
use crate::sheet::{Line, Sheet};
use crate::sorts::SMALL;

/// Node, kind and threshold stand before the sets.
pub const NUMBERS: usize = 3;

/// Mostly few rows: a fault shows in a small file as well as in a large one, and many small ones are soon tried.
pub fn good_rows(rng: &mut Prng) -> Rows {
    match rng.below(10) {
        0 => drawn_rows::accepted(rng, SMALL),
        1..=4 => {
            let nodes = rng.between(3, 8);
            drawn_knots::of(rng, nodes)
        }
        _ => drawn_rows::accepted(rng, &[Shape::Few]),
    }
}

/// The index of a row's line; the header is line 0 here.
pub fn row_index(rng: &mut Prng, sheet: &Sheet) -> usize {
    rng.between(1, sheet.lines.len() - 1)
}

pub fn a_row<'a>(rng: &mut Prng, sheet: &'a mut Sheet) -> &'a mut Line {
    let index = row_index(rng, sheet);
    &mut sheet.lines[index]
}

/// Any line; the first and the last come often, however many there are.
pub fn a_line<'a>(rng: &mut Prng, sheet: &'a mut Sheet) -> &'a mut Line {
    let last = sheet.lines.len() - 1;
    let any = rng.between(0, last);
    &mut sheet.lines[*rng.pick(&[0, last, any, any, any])]
}

/// The node, kind or threshold of a row.
pub fn a_number<'a>(rng: &mut Prng, sheet: &'a mut Sheet) -> &'a mut String {
    let column = rng.below(NUMBERS);
    &mut a_row(rng, sheet).fields[column]
}

/// One of the sets that fit, if there is any.
pub fn a_set<'a>(
    rng: &mut Prng,
    sheet: &'a mut Sheet,
    fits: impl Fn(&str) -> bool,
) -> Option<&'a mut String> {
    let sets = sheet.lines[1..].iter_mut();
    let sets = sets.flat_map(|line| &mut line.fields[NUMBERS..]);
    let mut fitting: Vec<&mut String> = sets.filter(|set| fits(set)).collect();
    if fitting.is_empty() {
        return None;
    }
    Some(fitting.swap_remove(rng.below(fitting.len())))
}
