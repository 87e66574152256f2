//! Files by their size: at the most bytes that are read, one more, and many more.

use crate::claims::MOST_BYTES;
use crate::drawn_files::{Kinds, Making::After};
use crate::drawn_sheets::{a_line, a_number};
use crate::prng::Prng;
use crate::sheet::Sheet;

#[rustfmt::skip]
pub const KINDS: Kinds = &[
    ("65535", After(|rng, sheet| padded(rng, sheet, MOST_BYTES - 1))),
    ("65536", After(|rng, sheet| padded(rng, sheet, MOST_BYTES))),
    ("65537", After(|rng, sheet| padded(rng, sheet, MOST_BYTES + 1))),
    ("more", After(|rng, sheet| {
        let more = *rng.pick(&[2, 3, 100, 5_000, MOST_BYTES, MOST_BYTES + 50, 3 * MOST_BYTES]);
        padded(rng, sheet, MOST_BYTES + more)
    })),
    ("65536 with a bad line", After(|rng, sheet| spoilt(rng, sheet, MOST_BYTES))),
    ("65537 with a bad line", After(|rng, sheet| spoilt(rng, sheet, MOST_BYTES + 1))),
    ("65536 without the last end", After(|rng, sheet| unended(rng, sheet, MOST_BYTES))),
    ("65537 without the last end", After(|rng, sheet| unended(rng, sheet, MOST_BYTES + 1))),
];

/// Zeros before numbers, so that the file is as good as before: all before one, or before several.
fn padded(rng: &mut Prng, sheet: &mut Sheet, bytes: usize) -> Option<()> {
    let mut missing = bytes.checked_sub(sheet.text().len())?;
    while missing > 0 {
        let some = rng.between(1, missing);
        let zeros = *rng.pick(&[some, missing]);
        let number = a_number(rng, sheet);
        let start = number.find(|first: char| first.is_ascii_digit())?;
        number.insert_str(start, &"0".repeat(zeros));
        missing -= zeros;
    }
    Some(())
}

fn spoilt(rng: &mut Prng, sheet: &mut Sheet, bytes: usize) -> Option<()> {
    a_line(rng, sheet).fields[1].push(' ');
    padded(rng, sheet, bytes)
}

fn unended(rng: &mut Prng, sheet: &mut Sheet, bytes: usize) -> Option<()> {
    sheet.lines.last_mut()?.end = "";
    padded(rng, sheet, bytes)
}
