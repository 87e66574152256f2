//! Times the proved library against the second program, both in this process, and the program `claims` against the second one. Words name what to measure; without any, all of it.

mod conditions;
mod deliveries;
mod files;
mod filled;
mod graphs;
mod growth;
mod proved;
mod reduction;
mod rounds;
mod situations;
mod table;
mod timing;
mod waiting;

use std::process::ExitCode;

const MEASURES: [(&str, fn()); 5] = [
    ("reduction", reduction::measure),
    ("rounds", rounds::measure),
    ("growth", growth::measure),
    ("deliveries", deliveries::measure),
    ("files", files::measure),
];

fn main() -> ExitCode {
    let words: Vec<String> = std::env::args().skip(1).collect();
    let known = |word: &String| MEASURES.iter().any(|(name, _)| name == word);
    if let Some(word) = words.iter().find(|word| !known(word)) {
        eprintln!(
            "bench: there is nothing to measure by the name {word}; there are: {}",
            MEASURES.map(|(name, _)| name).join(" ")
        );
        return ExitCode::from(2);
    }
    for (name, measure) in MEASURES {
        if words.is_empty() || words.iter().any(|word| word == name) {
            measure();
        }
    }
    ExitCode::SUCCESS
}
