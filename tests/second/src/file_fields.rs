//! Files with a field too many or too few in a line, or with nothing in a field.

use crate::drawn_files::{Kinds, Making::After, Making::Before};
use crate::drawn_sheets::{a_line, a_number, a_row, a_set, NUMBERS};
use crate::prng::Prng;
use crate::sheet::Sheet;

#[rustfmt::skip]
pub const COUNTS: Kinds = &[
    ("the last left out", Before(|rng, sheet| fields(rng, sheet, |_, fields| fields.truncate(6)))),
    ("one left out", Before(|rng, sheet| fields(rng, sheet, |rng, fields| {
        fields.remove(rng.below(fields.len()));
    }))),
    ("several left out", Before(|rng, sheet| fields(rng, sheet, |rng, fields| fields.truncate(rng.between(1, 5))))),
    ("one more at the end", Before(|rng, sheet| fields(rng, sheet, |_, fields| fields.push(String::new())))),
    ("one more anywhere", Before(|rng, sheet| fields(rng, sheet, |rng, fields| {
        let at = rng.below(fields.len());
        fields.insert(at, String::new());
    }))),
    ("one doubled", Before(|rng, sheet| fields(rng, sheet, |rng, fields| {
        let at = rng.below(fields.len());
        fields.insert(at, fields[at].clone());
    }))),
    ("many more", Before(|rng, sheet| fields(rng, sheet, |rng, fields| {
        fields.resize(7 + rng.between(2, 300), String::new());
    }))),
];

#[rustfmt::skip]
pub const EMPTY: Kinds = &[
    ("a node", Before(|rng, sheet| cleared(rng, sheet, 0))),
    ("a kind", Before(|rng, sheet| cleared(rng, sheet, 1))),
    ("a threshold", Before(|rng, sheet| cleared(rng, sheet, 2))),
    ("a number in quotes", After(|rng, sheet| {
        *a_number(rng, sheet) = String::from("\"\"");
        Some(())
    })),
    ("a set that wasn't", Before(|rng, sheet| {
        a_set(rng, sheet, |set| !set.is_empty())?.clear();
        Some(())
    })),
    ("a set in quotes", After(|rng, sheet| {
        *a_set(rng, sheet, str::is_empty)? = String::from("\"\"");
        Some(())
    })),
    ("all fields of a line", Before(|rng, sheet| fields(rng, sheet, |_, fields| fields.fill(String::new())))),
    ("all numbers of a row", Before(|rng, sheet| {
        a_row(rng, sheet).fields[..NUMBERS].fill(String::new());
        Some(())
    })),
];

fn fields(
    rng: &mut Prng,
    sheet: &mut Sheet,
    change: fn(&mut Prng, &mut Vec<String>),
) -> Option<()> {
    let line = a_line(rng, sheet);
    change(rng, &mut line.fields);
    Some(())
}

fn cleared(rng: &mut Prng, sheet: &mut Sheet, column: usize) -> Option<()> {
    a_row(rng, sheet).fields[column].clear();
    Some(())
}
