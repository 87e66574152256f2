//! Files whose lines end otherwise than with CR LF.

use crate::drawn_files::{Kinds, Making::After};
use crate::drawn_sheets::a_line;
use crate::prng::Prng;
use crate::sheet::{Sheet, LINE_END};

#[rustfmt::skip]
pub const KINDS: Kinds = &[
    ("LF on one", After(|rng, sheet| on_one(rng, sheet, "\n"))),
    ("LF on all", After(|_, sheet| on_all(sheet, "\n"))),
    ("CR on one", After(|rng, sheet| on_one(rng, sheet, "\r"))),
    ("CR on all", After(|_, sheet| on_all(sheet, "\r"))),
    ("LF CR on one", After(|rng, sheet| on_one(rng, sheet, "\n\r"))),
    ("LF CR on all", After(|_, sheet| on_all(sheet, "\n\r"))),
    ("CR CR LF on one", After(|rng, sheet| on_one(rng, sheet, "\r\r\n"))),
    ("CR LF LF on one", After(|rng, sheet| on_one(rng, sheet, "\r\n\n"))),
    ("CR LF CR on one", After(|rng, sheet| on_one(rng, sheet, "\r\n\r"))),
    ("none on one", After(|rng, sheet| on_one(rng, sheet, ""))),
    ("mixed", After(|rng, sheet| {
        for line in &mut sheet.lines {
            line.end = *rng.pick(&[LINE_END, LINE_END, LINE_END, "\n", "\r", "\n\r"]);
        }
        Some(())
    })),
    ("LF at the end", After(|_, sheet| on_last(sheet, "\n"))),
    ("CR at the end", After(|_, sheet| on_last(sheet, "\r"))),
    ("CR LF CR LF at the end", After(|_, sheet| on_last(sheet, "\r\n\r\n"))),
    ("CR LF LF at the end", After(|_, sheet| on_last(sheet, "\r\n\n"))),
    ("others", After(|rng, sheet| {
        let end = *rng.pick(&["\x0b", "\x0c", "\x00", "\u{85}", "\u{2028}", " \r\n", "\\r\\n", ";"]);
        on_one(rng, sheet, end)
    })),
];

fn on_one(rng: &mut Prng, sheet: &mut Sheet, end: &'static str) -> Option<()> {
    a_line(rng, sheet).end = end;
    Some(())
}

fn on_all(sheet: &mut Sheet, end: &'static str) -> Option<()> {
    for line in &mut sheet.lines {
        line.end = end;
    }
    Some(())
}

fn on_last(sheet: &mut Sheet, end: &'static str) -> Option<()> {
    sheet.lines.last_mut()?.end = end;
    Some(())
}
