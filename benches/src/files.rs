//! The program `claims` on the largest files, beside the second program's own `claims`. Each run is a process of its own, and what
//! one takes for an empty file is taken off, so that what is left is the file's.

use crate::graphs::SHAPES;
use crate::table::Table;
use crate::timing::children_time;
use second::claims::MOST_BYTES;
use second::pipe::Program;
use second::prng::Prng;
use second::sheet::Sheet;

/// The words that start each program, by the variables that `./bench` sets.
const SIDES: [&str; 2] = ["CLAIMS", "SECOND_CLAIMS"];
const RUNS: u32 = 50;
const REPETITIONS: usize = 9;

pub fn measure() {
    let Some(programs) = programs() else {
        eprintln!("bench: files are timed on x86-64 only, where no emulator is in between");
        return;
    };
    let table = Table::new("files of waits, as processes", ["proved", "second"], "file");
    for (name, file) in files() {
        assert_same(name, &file, &programs);
        let named = format!("{name}, {} bytes", file.len());
        table.row(&named, [0, 1].map(|side| taken(&programs[side], &file)));
    }
}

/// `None` where `./bench` set nothing.
fn programs() -> Option<[Vec<String>; 2]> {
    Some([words(SIDES[0])?, words(SIDES[1])?])
}

fn words(variable: &str) -> Option<Vec<String>> {
    let words = std::env::var(variable).ok()?;
    Some(words.split(' ').map(String::from).collect())
}

/// A graph of 64 nodes and 512 edges as it is written, and the same with zeros in front of its numbers, as long as a file may be.
fn files() -> [(&'static str, Vec<u8>); 2] {
    let full = SHAPES.last().expect("shapes").1;
    let plain = Sheet::of(&full(&mut Prng::for_script(0, 0)));
    let mut padded = Sheet::of(&full(&mut Prng::for_script(0, 0)));
    let missing = MOST_BYTES - plain.text().len();
    let rows = padded.lines.len() - 1;
    for (row, line) in padded.lines.iter_mut().skip(1).enumerate() {
        let zeros = missing / rows + usize::from(row < missing % rows);
        line.fields[2].insert_str(0, &"0".repeat(zeros));
    }
    [("512 edges, as written", plain), ("zeros in front", padded)]
        .map(|(name, sheet)| (name, sheet.text().into_bytes()))
}

/// A comparison of different answers would be void.
fn assert_same(name: &str, file: &[u8], programs: &[Vec<String>; 2]) {
    let answers = programs.each_ref().map(|words| run(words, file));
    assert_eq!(answers[0], answers[1], "{name}: the answers");
    assert!(!answers[0].starts_with(b"refused"), "{name}: it is refused");
}

/// The nanoseconds that a run takes for this file more than for an empty one: the fastest repetition of each.
fn taken(words: &[String], file: &[u8]) -> f64 {
    let mut best = [f64::INFINITY; 2];
    for _ in 0..REPETITIONS {
        for (side, input) in [file, b""].into_iter().enumerate() {
            let start = children_time();
            for _ in 0..RUNS {
                run(words, input);
            }
            let taken = (children_time() - start).as_nanos() as f64;
            best[side] = best[side].min(taken / f64::from(RUNS));
        }
    }
    best[0] - best[1]
}

fn run(words: &[String], input: &[u8]) -> Vec<u8> {
    let words: Vec<&str> = words.iter().map(String::as_str).collect();
    let program = Program {
        name: words[0],
        arguments: &words[1..],
    };
    program
        .run(input)
        .expect("a program that can be started")
        .bytes
}
