//! Files whose header isn't the header.

use crate::drawn_files::{Kinds, Making::After, Making::Before};
use crate::prng::Prng;
use crate::sheet::Sheet;

#[rustfmt::skip]
pub const KINDS: Kinds = &[
    ("a letter changed", Before(|rng, sheet| word(rng, sheet, |rng, word| {
        let at = rng.below(word.len());
        let letter = *rng.pick(&["a", "e", "0", "1", "2", "5", "_", ""]);
        word.replace_range(at..at + 1, letter);
    }))),
    ("upper case", Before(|rng, sheet| word(rng, sheet, |rng, word| {
        let letters = rng.between(1, word.len());
        word[..letters].make_ascii_uppercase();
    }))),
    ("all upper case", Before(|_, sheet| {
        for word in &mut sheet.lines[0].fields {
            word.make_ascii_uppercase();
        }
        Some(())
    })),
    ("a space before a word", Before(|rng, sheet| word(rng, sheet, |_, word| word.insert(0, ' ')))),
    ("a space after a word", Before(|rng, sheet| word(rng, sheet, |_, word| word.push(' ')))),
    ("a zero in a word", Before(|rng, sheet| {
        let column = rng.between(3, 6);
        sheet.lines[0].fields[column].insert(3, '0');
        Some(())
    })),
    ("an empty word", Before(|rng, sheet| word(rng, sheet, |_, word| word.clear()))),
    ("two words swapped", Before(|rng, sheet| {
        let (a, b) = (rng.below(7), rng.below(7));
        sheet.lines[0].fields.swap(a, b);
        (a != b).then_some(())
    })),
    ("a word left out", Before(|rng, sheet| {
        sheet.lines[0].fields.remove(rng.below(7));
        Some(())
    })),
    ("a word more", Before(|_, sheet| {
        sheet.lines[0].fields.push(String::from("set5"));
        Some(())
    })),
    ("a byte order mark", After(|_, sheet| {
        sheet.lines[0].fields[0].insert(0, '\u{feff}');
        Some(())
    })),
    ("a byte order mark in the first word", Before(|_, sheet| {
        sheet.lines[0].fields[0].insert(0, '\u{feff}');
        Some(())
    })),
];

fn word(rng: &mut Prng, sheet: &mut Sheet, change: fn(&mut Prng, &mut String)) -> Option<()> {
    let column = rng.below(7);
    change(rng, &mut sheet.lines[0].fields[column]);
    Some(())
}
