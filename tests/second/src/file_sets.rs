//! Files with a set out of order, with a space too many, or with members at and past the largest.

use crate::drawn_files::{Kinds, Making::Before};
use crate::drawn_sheets::a_set;
use crate::file_numbers::{far_past, odd, past, signed, zeros};
use crate::prng::Prng;
use crate::sheet::Sheet;

#[rustfmt::skip]
pub const KINDS: Kinds = &[
    ("two members swapped", Before(|rng, sheet| words(rng, sheet, 2, |rng, words| {
        let at = rng.between(1, words.len() - 1);
        words.swap(at - 1, at);
    }))),
    ("the first member last", Before(|rng, sheet| words(rng, sheet, 2, |_, words| words.rotate_left(1)))),
    ("equal members", Before(|rng, sheet| words(rng, sheet, 1, |rng, words| {
        let at = rng.below(words.len());
        words.insert(at, words[at].clone());
    }))),
    ("equal members but for zeros", Before(|rng, sheet| words(rng, sheet, 1, |rng, words| {
        let at = rng.below(words.len());
        words.insert(at, zeros(rng) + &words[at]);
    }))),
    ("a double space", Before(|rng, sheet| words(rng, sheet, 2, |rng, words| {
        let between = rng.between(1, words.len() - 1);
        words.insert(between, String::new());
    }))),
    ("a leading space", Before(|rng, sheet| words(rng, sheet, 1, |_, words| words.insert(0, String::new())))),
    ("a trailing space", Before(|rng, sheet| words(rng, sheet, 1, |_, words| words.push(String::new())))),
    ("a space alone", Before(|rng, sheet| {
        a_set(rng, sheet, str::is_empty)?.push(' ');
        Some(())
    })),
    ("another blank", Before(|rng, sheet| words(rng, sheet, 2, |rng, words| {
        let at = rng.between(1, words.len() - 1);
        let member = words.remove(at);
        words[at - 1] += *rng.pick(&["\t", "\u{a0}", "\x0b", "\n", "\r\n", ";", "-", ","]);
        words[at - 1] += &member;
    }))),
    ("63", Before(|rng, sheet| with_more(rng, sheet, |_| String::from("63")))),
    ("64", Before(|rng, sheet| with_more(rng, sheet, |_| String::from("64")))),
    ("64 after zeros", Before(|rng, sheet| with_more(rng, sheet, |rng| zeros(rng) + "64"))),
    ("the first that is no node", Before(|rng, sheet| {
        let nodes = sheet.lines.len() - 1;
        with_more(rng, sheet, |_| nodes.to_string())
    })),
    ("past by a power of two", Before(|rng, sheet| with_other(rng, sheet, |rng, member| {
        let power = *rng.pick(&[6, 7, 8, 16, 31, 32, 63]);
        past(member, 1 << power)
    }))),
    ("past by 2^64", Before(|rng, sheet| with_other(rng, sheet, |_, member| past(member, 1 << 64)))),
    ("huge", Before(|rng, sheet| with_other(rng, sheet, far_past))),
    ("with a sign", Before(|rng, sheet| with_other(rng, sheet, signed))),
    ("no number", Before(|rng, sheet| with_other(rng, sheet, odd))),
];

/// A set of at least so many members, its words changed so. An empty word leaves a space too many.
fn words(
    rng: &mut Prng,
    sheet: &mut Sheet,
    least: usize,
    change: impl FnOnce(&mut Prng, &mut Vec<String>),
) -> Option<()> {
    let set = a_set(rng, sheet, |set| set.split_whitespace().count() >= least)?;
    let mut words: Vec<String> = set.split(' ').map(String::from).collect();
    change(rng, &mut words);
    *set = words.join(" ");
    Some(())
}

fn with_more(
    rng: &mut Prng,
    sheet: &mut Sheet,
    member: impl FnOnce(&mut Prng) -> String,
) -> Option<()> {
    words(rng, sheet, 1, |rng, words| words.push(member(rng)))
}

/// Another word for the last member, so that the order stays good where larger members are taken.
fn with_other(
    rng: &mut Prng,
    sheet: &mut Sheet,
    other: fn(&mut Prng, &str) -> String,
) -> Option<()> {
    words(rng, sheet, 1, |rng, words| {
        let last = words.len() - 1;
        words[last] = other(rng, &words[last]);
    })
}
