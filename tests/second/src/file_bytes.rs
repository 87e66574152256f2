//! Files damaged without regard to what they say: a byte changed, put in, taken out, or the rest cut off.

use crate::drawn_files::{Kinds, Making::Bytes};
use crate::prng::Prng;

#[rustfmt::skip]
pub const KINDS: Kinds = &[
    ("one changed", Bytes(|rng, bytes| {
        let at = rng.below(bytes.len());
        bytes[at] = any(rng);
    })),
    ("one put in", Bytes(|rng, bytes| {
        let at = rng.below(bytes.len() + 1);
        bytes.insert(at, any(rng));
    })),
    ("one put in twice", Bytes(|rng, bytes| {
        let at = rng.below(bytes.len());
        bytes.insert(at, bytes[at]);
    })),
    ("one added at the end", Bytes(|rng, bytes| bytes.push(any(rng)))),
    ("a mark of the end added", Bytes(|rng, bytes| bytes.push(*rng.pick(b"\x00\x04\x1a\xff")))),
    ("one taken out", Bytes(|rng, bytes| {
        bytes.remove(rng.below(bytes.len()));
    })),
    ("two neighbours swapped", Bytes(|rng, bytes| {
        let at = rng.between(1, bytes.len() - 1);
        bytes.swap(at - 1, at);
    })),
    ("the rest cut off", Bytes(|rng, bytes| bytes.truncate(rng.below(bytes.len())))),
    ("all but a few cut off", Bytes(|rng, bytes| bytes.truncate(rng.below(50)))),
    ("none at all", Bytes(|_, bytes| bytes.clear())),
    ("commas turned into semicolons", Bytes(|_, bytes| semicolons(bytes))),
    ("commas of the rows turned into semicolons", Bytes(|_, bytes| {
        let header = bytes.iter().position(|byte| *byte == b'\n').unwrap_or(0);
        semicolons(&mut bytes[header..]);
    })),
];

fn semicolons(bytes: &mut [u8]) {
    for byte in bytes.iter_mut().filter(|byte| **byte == b',') {
        *byte = b';';
    }
}

/// Those that a file is made of come most often, then the neighbours of the digits and other odd ones.
fn any(rng: &mut Prng) -> u8 {
    match rng.below(4) {
        0 => *rng.pick(b"0123456789"),
        1 => *rng.pick(b",\" \r\n"),
        2 => *rng.pick(b"/:'.;-+\t\x00\x0b\x0c\x1a\x7f\x80\xa0\xff"),
        _ => rng.below(256) as u8,
    }
}
