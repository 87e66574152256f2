//! Ways of writing a script: odd but good, at its limits, past them, or with a fault.

use crate::bench::DELIVER;
use crate::prng::Prng;
use crate::script::{Script, LARGEST_PLACE, LARGEST_STEP_KIND, MOST_BYTES, MOST_IN_A_LIST};

const BLANKS: [&str; 8] = [" ", "\n", "\t", "\r", "\r\n", "  ", " \t ", "\n\n\r"];
const PAST_64_BITS: [&str; 5] = [
    "18446744073709551616",
    "0000018446744073709551620",
    "36893488147419103232",
    "99999999999999999999",
    "100000000000000000000000000000000000000000",
];
/// Neighbours of the digits and of the blanks, and others that a careless reader lets through.
const BAD_BYTES: &[u8] = b"/:xa,.;_#-+\x00\x08\x0b\x0c\x0e\x1f\x7f\x80\xa0\xff";

const LIMITS: u64 = 7;

/// Some of these may leave a good script behind (a digit put for a digit); the answer is computed either way.
const FAULTS: [fn(&mut Prng, &Script) -> Vec<u8>; 9] = [
    |rng, script| {
        with_word(rng, script, |rng, word| {
            rng.pick(&["-", "+"]).to_string() + word
        })
    },
    |rng, script| with_word(rng, script, |rng, word| format!("{word} {}", rng.below(3))),
    |rng, script| with_word(rng, script, |_, _| String::new()),
    |rng, script| with_word(rng, script, |rng, _| String::from(*rng.pick(&PAST_64_BITS))),
    |rng, script| with_byte(rng, script, BAD_BYTES, |_| true),
    |rng, script| with_byte(rng, script, BAD_BYTES, |byte| !byte.is_ascii_digit()),
    |rng, script| with_byte(rng, script, b"0123456789 \n", |_| true),
    |rng, script| {
        let text = script.text();
        text.as_bytes()[..rng.below(text.len())].to_vec()
    },
    |rng, _| Vec::from(*rng.pick(&["", " ", "\n", "\r\n\t "])),
];

/// Every limit overstepped and every fault, in turn so that each comes up early.
pub fn malformed(rng: &mut Prng, script: &Script, turn: u64) -> Vec<u8> {
    let which = turn / 2;
    match turn % 2 {
        0 => {
            let past = *rng.pick(&[1, 1, 1 << 32, u64::MAX]);
            at_limit(rng, script, which % LIMITS, past)
        }
        _ => FAULTS[which as usize % FAULTS.len()](rng, script),
    }
}

/// Good scripts, their forms in turn: on one line without an end, with odd blanks and zeros, at the limits.
pub fn odd(rng: &mut Prng, script: &Script, turn: u64) -> Vec<u8> {
    match turn % 4 {
        0 => Vec::from(words(script).join(" ")),
        1 => odd_blanks(rng, script),
        _ => at_limit(rng, script, turn % LIMITS, 0),
    }
}

fn words(script: &Script) -> Vec<String> {
    script.text().split_whitespace().map(String::from).collect()
}

fn odd_blanks(rng: &mut Prng, script: &Script) -> Vec<u8> {
    let mut text = String::from(*rng.pick(&["", " ", "\r\n", "\t\n"]));
    for word in words(script) {
        if rng.chance(10) {
            text += &"0".repeat(rng.between(1, 40));
        }
        text += &word;
        text += *rng.pick(&BLANKS);
    }
    Vec::from(text)
}

/// One of the limits, reached where `past` is 0 and overstepped by it elsewhere; a list is at most one too long.
fn at_limit(rng: &mut Prng, script: &Script, limit: u64, past: u64) -> Vec<u8> {
    let mut script = script.clone();
    let one = past.min(1) as usize;
    let most = MOST_IN_A_LIST as usize + one;
    let kind = rng.below(3) as u64;
    let place = LARGEST_PLACE.saturating_add(past);
    let no_kind = LARGEST_STEP_KIND.saturating_add(past);
    let at = rng.below(script.steps.len() + 1);
    match limit {
        0 => script.rows.numbers.resize(most, 0),
        1 => script.steps.resize(most, [DELIVER, 0, 0]),
        2 => script.room = MOST_IN_A_LIST.saturating_add(past),
        3 => script.steps.insert(at, [no_kind, 0, 0]),
        4 => script.steps.insert(at, [kind, place, 0]),
        5 => script.steps.insert(at, [kind, 0, place]),
        _ => {
            let mut bytes = Vec::from(script.text());
            bytes.resize(MOST_BYTES + one, *rng.pick(b" \n"));
            return bytes;
        }
    }
    Vec::from(script.text())
}

/// One word changed, often the last.
fn with_word(rng: &mut Prng, script: &Script, change: fn(&mut Prng, &str) -> String) -> Vec<u8> {
    let mut words = words(script);
    let last = words.len() - 1;
    let anywhere = rng.below(words.len());
    let place = *rng.pick(&[last, anywhere, anywhere]);
    words[place] = change(rng, &words[place]);
    Vec::from(words.join("\n") + "\n")
}

/// One byte, of those that may be changed, changed into one of the given ones.
fn with_byte(rng: &mut Prng, script: &Script, into: &[u8], may: fn(&u8) -> bool) -> Vec<u8> {
    let mut bytes = Vec::from(script.text());
    let places: Vec<usize> = (0..bytes.len()).filter(|at| may(&bytes[*at])).collect();
    bytes[*rng.pick(&places)] = *rng.pick(into);
    bytes
}
