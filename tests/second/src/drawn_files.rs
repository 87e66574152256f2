//! The kinds of random files of waits, and which file is of which.

use crate::drawn_sheets;
use crate::graph::Rows;
use crate::prng::Prng;
use crate::sheet::Sheet;
use crate::{
    file_bytes, file_ends, file_fields, file_forms, file_graphs, file_headers, file_lines,
    file_numbers, file_orders, file_quotes, file_sets, file_sizes,
};
use Making::*;

pub type Draw = fn(&mut Prng) -> Rows;

/// None where the sheet has no place for what should be done to it.
pub type Change = fn(&mut Prng, &mut Sheet) -> Option<()>;

/// How a kind of file is made. The rows are accepted ones, unless others are named.
pub enum Making {
    /// These rows in any good form.
    Graph(Draw),
    /// This good form.
    Form(fn(&mut Prng, &mut Sheet)),
    /// Changed so, and put in any good form afterwards.
    Before(Change),
    /// These rows changed so, and put in any good form afterwards.
    GraphBefore(Draw, Change),
    /// Put in any good form, and changed so afterwards.
    After(Change),
    /// In any good form, the bytes changed so.
    Bytes(fn(&mut Prng, &mut Vec<u8>)),
}

pub type Kinds = &'static [(&'static str, Making)];

const GROUPS: [(&str, Kinds); 16] = [
    ("form", file_forms::KINDS),
    ("graph", file_graphs::ACCEPTED),
    ("graph refused", file_graphs::REFUSED),
    ("rows", file_graphs::ROWS),
    ("order of faults", file_orders::KINDS),
    ("bytes", file_bytes::KINDS),
    ("size", file_sizes::KINDS),
    ("lines", file_lines::KINDS),
    ("line ends", file_ends::KINDS),
    ("quotes", file_quotes::KINDS),
    ("set", file_sets::KINDS),
    ("number", file_numbers::KINDS),
    ("node", file_numbers::NODES),
    ("count of fields", file_fields::COUNTS),
    ("empty", file_fields::EMPTY),
    ("header", file_headers::KINDS),
];

pub struct Drawn {
    pub group: &'static str,
    pub name: &'static str,
    pub file: File,
}

pub struct File {
    pub rows: Rows,
    pub bytes: Vec<u8>,
    /// Whether the bytes must read as the rows, if they aren't too many.
    pub is_good: bool,
}

/// The group and the name of every kind.
pub fn names() -> impl Iterator<Item = (&'static str, &'static str)> {
    let groups = GROUPS.into_iter();
    groups.flat_map(|(group, kinds)| kinds.iter().map(move |(name, _)| (group, *name)))
}

/// Seed and index settle the file. Groups are taken in turn, and kinds in turn within their group.
pub fn draw(seed: u64, index: u64) -> Drawn {
    let rng = &mut Prng::for_script(seed, index);
    let groups = GROUPS.len() as u64;
    let (group, kinds) = GROUPS[(index % groups) as usize];
    let (name, making) = &kinds[(index / groups) as usize % kinds.len()];
    loop {
        if let Some(file) = made(rng, making) {
            return Drawn { group, name, file };
        }
    }
}

fn made(rng: &mut Prng, making: &Making) -> Option<File> {
    let rows = match making {
        Graph(draw) | GraphBefore(draw, _) => draw(rng),
        _ => drawn_sheets::good_rows(rng),
    };
    let mut sheet = Sheet::of(&rows);
    match making {
        Form(form) => form(rng, &mut sheet),
        After(change) => {
            file_forms::any(rng, &mut sheet);
            change(rng, &mut sheet)?;
        }
        Before(change) | GraphBefore(_, change) => {
            change(rng, &mut sheet)?;
            file_forms::any_or_unended(rng, &mut sheet);
        }
        Graph(_) | Bytes(_) => file_forms::any_or_unended(rng, &mut sheet),
    }
    let mut bytes = Vec::from(sheet.text());
    if let Bytes(change) = making {
        change(rng, &mut bytes);
    }
    Some(File {
        rows,
        bytes,
        is_good: matches!(making, Graph(_) | Form(_)),
    })
}
