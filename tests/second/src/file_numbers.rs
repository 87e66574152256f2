//! Files with a number at or past the largest, a word that is no number, or a node that isn't the next one.

use crate::drawn_files::{Kinds, Making::Before};
use crate::drawn_sheets::{a_number, row_index};
use crate::prng::Prng;
use crate::sheet::Sheet;

const LARGEST: &str = "18446744073709551615";
const FIRST_PAST: &str = "18446744073709551616";

#[rustfmt::skip]
pub const KINDS: Kinds = &[
    ("2^64-1", Before(|rng, sheet| with_other(rng, sheet, |_, _| String::from(LARGEST)))),
    ("2^64-1 after zeros", Before(|rng, sheet| with_other(rng, sheet, |rng, _| zeros(rng) + LARGEST))),
    ("2^64", Before(|rng, sheet| with_other(rng, sheet, |_, _| String::from(FIRST_PAST)))),
    ("2^64 after zeros", Before(|rng, sheet| with_other(rng, sheet, |rng, _| zeros(rng) + FIRST_PAST))),
    ("past by 2^64", Before(|rng, sheet| with_other(rng, sheet, |_, word| past(word, 1 << 64)))),
    ("past by 2^32", Before(|rng, sheet| with_other(rng, sheet, |_, word| past(word, 1 << 32)))),
    ("far past", Before(|rng, sheet| with_other(rng, sheet, far_past))),
    ("far past after zeros", Before(|rng, sheet| with_other(rng, sheet, |rng, word| {
        zeros(rng) + &far_past(rng, word)
    }))),
    ("with a sign", Before(|rng, sheet| with_other(rng, sheet, signed))),
    ("none", Before(|rng, sheet| with_other(rng, sheet, odd))),
    ("a space too many", Before(|rng, sheet| with_other(rng, sheet, |rng, word| match rng.below(3) {
        0 => format!(" {word}"),
        1 => format!("{word} "),
        _ => format!("{word} {word}"),
    }))),
];

#[rustfmt::skip]
pub const NODES: Kinds = &[
    ("from 1", Before(|_, sheet| renumbered(sheet, 1, |node| node + 1))),
    ("one skipped", Before(|rng, sheet| {
        let row = row_index(rng, sheet);
        renumbered(sheet, row, |node| node + 1)
    })),
    ("one twice", Before(|rng, sheet| {
        let row = row_index(rng, sheet);
        renumbered(sheet, row.max(2), |node| node - 1)
    })),
    ("descending", Before(|_, sheet| {
        let last = sheet.lines.len() - 2;
        renumbered(sheet, 1, |node| last - node)
    })),
    ("all 0", Before(|_, sheet| renumbered(sheet, 1, |_| 0))),
    ("one of another row", Before(|rng, sheet| {
        let row = row_index(rng, sheet);
        let other = rng.below(sheet.lines.len());
        sheet.lines[row].fields[0] = other.to_string();
        (other + 1 != row).then_some(())
    })),
    ("one far away", Before(|rng, sheet| {
        let row = row_index(rng, sheet);
        let away = *rng.pick(&[64, 256, 1 << 16, 1 << 32, 1 << 64]);
        let node = &mut sheet.lines[row].fields[0];
        *node = past(node, away);
        Some(())
    })),
];

pub fn zeros(rng: &mut Prng) -> String {
    "0".repeat(*rng.pick(&[1, 2, 5, 20, 40, 300]))
}

/// A careless reader that keeps the lowest bits alone takes it for the number itself.
pub fn past(word: &str, power: u128) -> String {
    let number: u128 = word.parse().unwrap_or(0);
    (number + power).to_string()
}

pub fn far_past(rng: &mut Prng, word: &str) -> String {
    match rng.below(4) {
        0 => "9".repeat(rng.between(20, 60)),
        1 => past(word, 1 << rng.between(65, 120)),
        2 => past(word, u128::from(rng.next() >> 8) << 64 | 1 << 64),
        _ => format!("1{}{word}", "0".repeat(rng.between(20, 400))),
    }
}

pub fn signed(rng: &mut Prng, word: &str) -> String {
    rng.pick(&["+", "-"]).to_string() + word
}

/// Close to the number, but not digits alone.
pub fn odd(rng: &mut Prng, word: &str) -> String {
    let (before, after) = *rng.pick(&[
        ("0x", ""),
        ("", ".0"),
        ("", "e0"),
        ("", "/"),
        ("", ":"),
        ("", "_0"),
        ("", "x"),
        ("", "\0"),
        ("\u{660}", ""),
        ("", "\u{ff10}"),
    ]);
    format!("{before}{word}{after}")
}

fn with_other(
    rng: &mut Prng,
    sheet: &mut Sheet,
    other: fn(&mut Prng, &str) -> String,
) -> Option<()> {
    let number = a_number(rng, sheet);
    *number = other(rng, number);
    Some(())
}

/// The nodes of this row and all after it, if there are any.
fn renumbered(sheet: &mut Sheet, row: usize, other: impl Fn(usize) -> usize) -> Option<()> {
    for (index, line) in sheet.lines.iter_mut().enumerate().skip(row) {
        line.fields[0] = other(index - 1).to_string();
    }
    (row < sheet.lines.len()).then_some(())
}
