//! Files with whole lines doubled, left out or swapped, or with lines of nothing.

use crate::drawn_files::{Kinds, Making::After, Making::Before};
use crate::drawn_sheets::row_index;
use crate::sheet::{Line, Sheet};

#[rustfmt::skip]
pub const KINDS: Kinds = &[
    ("a row doubled", Before(|rng, sheet| {
        let row = row_index(rng, sheet);
        doubled(sheet, row)
    })),
    ("the header doubled", Before(|_, sheet| doubled(sheet, 0))),
    ("a row left out", Before(|rng, sheet| {
        let row = row_index(rng, sheet);
        left_out(sheet, row)
    })),
    ("the header left out", Before(|_, sheet| left_out(sheet, 0))),
    ("two rows swapped", Before(|rng, sheet| {
        let (a, b) = (row_index(rng, sheet), row_index(rng, sheet));
        sheet.lines.swap(a, b);
        (a != b).then_some(())
    })),
    ("the header among the rows", Before(|rng, sheet| {
        let row = row_index(rng, sheet);
        sheet.lines.swap(0, row);
        Some(())
    })),
    ("two rows in one line", Before(|rng, sheet| {
        let row = row_index(rng, sheet);
        let mut next = (row + 1 < sheet.lines.len()).then(|| sheet.lines.remove(row + 1))?;
        sheet.lines[row].fields.append(&mut next.fields);
        Some(())
    })),
    ("a blank one before the header", After(|_, sheet| blank(sheet, 0, ""))),
    ("a blank one after the header", After(|_, sheet| blank(sheet, 1, ""))),
    ("a blank one before a row", After(|rng, sheet| blank(sheet, row_index(rng, sheet), ""))),
    ("a blank one at the end", After(|_, sheet| blank(sheet, sheet.lines.len(), ""))),
    ("several blank ones at the end", After(|rng, sheet| {
        (0..rng.between(2, 5)).try_for_each(|_| blank(sheet, sheet.lines.len(), ""))
    })),
    ("one of a space at the end", After(|_, sheet| blank(sheet, sheet.lines.len(), " "))),
    ("one of quotes at the end", After(|_, sheet| blank(sheet, sheet.lines.len(), "\"\""))),
];

fn doubled(sheet: &mut Sheet, at: usize) -> Option<()> {
    sheet.lines.insert(at, sheet.lines[at].clone());
    Some(())
}

fn left_out(sheet: &mut Sheet, at: usize) -> Option<()> {
    sheet.lines.remove(at);
    Some(())
}

/// A line of a single field with nothing in it, or nothing to speak of.
fn blank(sheet: &mut Sheet, at: usize, field: &str) -> Option<()> {
    sheet.lines.insert(at, Line::of(vec![String::from(field)]));
    Some(())
}
