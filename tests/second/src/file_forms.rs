//! Good forms of a file: quotes, zeros in front, a last line without its end.

use crate::drawn_files::{Kinds, Making::Form};
use crate::drawn_sheets::a_number;
use crate::prng::Prng;
use crate::sheet::{Line, Sheet};

pub const KINDS: Kinds = &[
    ("plain", Form(plain)),
    ("some fields quoted", Form(some_quotes)),
    ("all fields quoted", Form(all_quotes)),
    ("only the header quoted", Form(header_quotes)),
    ("zeros in front", Form(zeros)),
    ("very many zeros", Form(many_zeros)),
    ("quotes and zeros", Form(mixed)),
    ("without the last end", Form(no_last_end)),
    (
        "quotes and zeros without the last end",
        Form(|rng, sheet| {
            mixed(rng, sheet);
            no_last_end(rng, sheet);
        }),
    ),
];

/// About half are plain.
pub fn any(rng: &mut Prng, sheet: &mut Sheet) {
    match rng.below(10) {
        0 => all_quotes(rng, sheet),
        1 => some_quotes(rng, sheet),
        2 => zeros(rng, sheet),
        3 | 4 => mixed(rng, sheet),
        _ => plain(rng, sheet),
    }
}

pub fn any_or_unended(rng: &mut Prng, sheet: &mut Sheet) {
    any(rng, sheet);
    if rng.chance(15) {
        no_last_end(rng, sheet);
    }
}

fn plain(_: &mut Prng, _: &mut Sheet) {}

fn some_quotes(rng: &mut Prng, sheet: &mut Sheet) {
    let percent = *rng.pick(&[20, 50, 80]);
    quote(rng, &mut sheet.lines, percent);
}

fn all_quotes(rng: &mut Prng, sheet: &mut Sheet) {
    quote(rng, &mut sheet.lines, 100);
}

fn header_quotes(rng: &mut Prng, sheet: &mut Sheet) {
    quote(rng, &mut sheet.lines[..1], 100);
}

fn quote(rng: &mut Prng, lines: &mut [Line], percent: usize) {
    for field in lines.iter_mut().flat_map(|line| &mut line.fields) {
        if rng.chance(percent) {
            *field = format!("\"{field}\"");
        }
    }
}

/// Before numbers and members alike.
fn zeros(rng: &mut Prng, sheet: &mut Sheet) {
    let percent = *rng.pick(&[20, 50, 100]);
    for field in sheet.lines.iter_mut().flat_map(|line| &mut line.fields) {
        let words = field.split(' ').map(|word| padded(rng, word, percent));
        *field = words.collect::<Vec<String>>().join(" ");
    }
}

/// Often to about the 20 digits that the largest numbers have.
fn padded(rng: &mut Prng, word: &str, percent: usize) -> String {
    let is_number = word.starts_with(|first: char| first.is_ascii_digit());
    let zeros = match is_number && rng.chance(percent) {
        true => *rng.pick(&[1, 1, 2, 3, 17, 18, 19, 20, 21, 40]),
        false => 0,
    };
    "0".repeat(zeros) + word
}

fn many_zeros(rng: &mut Prng, sheet: &mut Sheet) {
    let zeros = *rng.pick(&[100, 255, 256, 1_000, 5_000, 20_000]);
    a_number(rng, sheet).insert_str(0, &"0".repeat(zeros));
}

fn mixed(rng: &mut Prng, sheet: &mut Sheet) {
    zeros(rng, sheet);
    some_quotes(rng, sheet);
}

fn no_last_end(_: &mut Prng, sheet: &mut Sheet) {
    if let Some(last) = sheet.lines.last_mut() {
        last.end = "";
    }
}
