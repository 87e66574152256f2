//! The second program: says what the paper's rules make of an input, and holds other programs against it.

use second::call_trial::CallTrial;
use second::claims::Outcome;
use second::file_trial::{FileTrial, CLAIMS, REWRITE};
use second::pipe::Program;
use second::random::Trial;
use second::said::{self, Speaker};
use second::{claims, mornings, replay, rewrite, vectors};
use std::io::{self, Read, Write};
use std::process::ExitCode;

const USAGE: &str = "second replay
second claims
second rewrite
second vectors DIR PROGRAM [ARGS...]
second files-vectors DIR PROGRAM [ARGS...]
second random SEED COUNT PROGRAM [ARGS...]
second calls SEED COUNT PROGRAM [ARGS...]
second files SEED COUNT PROGRAM [ARGS...]
second rewrites SEED COUNT PROGRAM [ARGS...]
second mornings";

fn main() -> ExitCode {
    let words: Vec<String> = std::env::args().skip(1).collect();
    let words: Vec<&str> = words.iter().map(String::as_str).collect();
    obey(&words).unwrap_or_else(|error| {
        eprintln!("second: {error}");
        ExitCode::FAILURE
    })
}

fn obey(words: &[&str]) -> io::Result<ExitCode> {
    match words {
        ["replay"] => {
            let outcome = replay::replay(&input()?);
            answer(&outcome.to_string(), &outcome.errors())
        }
        ["claims"] => of_a_file(said::CLAIMS, Outcome::to_string),
        ["rewrite"] => of_a_file(said::REWRITE, rewrite::text),
        ["mornings"] => say(&mornings::text()),
        ["vectors", folder, name, arguments @ ..] => {
            vectors::SCRIPTS.check(folder, &Program { name, arguments })
        }
        ["files-vectors", folder, name, arguments @ ..] => {
            vectors::FILES.check(folder, &Program { name, arguments })
        }
        [trial, seed, count, name, arguments @ ..] => match (seed.parse(), count.parse()) {
            (Ok(seed), Ok(count)) => try_out(trial, seed, count, Program { name, arguments }),
            _ => usage(),
        },
        _ => usage(),
    }
}

fn try_out(trial: &str, seed: u64, count: u64, program: Program) -> io::Result<ExitCode> {
    match trial {
        "random" => Trial {
            seed,
            count,
            program,
        }
        .check(),
        "calls" => CallTrial {
            seed,
            count,
            program,
        }
        .check(),
        "files" => FileTrial {
            task: CLAIMS,
            seed,
            count,
            program,
        }
        .check(),
        "rewrites" => FileTrial {
            task: REWRITE,
            seed,
            count,
            program,
        }
        .check(),
        _ => usage(),
    }
}

/// What is said of the file of waits on standard input.
fn of_a_file(speaker: Speaker, text: fn(&Outcome) -> String) -> io::Result<ExitCode> {
    let file = input()?;
    let outcome = claims::judge(&file);
    answer(&text(&outcome), &speaker.words(&outcome, &file))
}

fn answer(text: &str, errors: &str) -> io::Result<ExitCode> {
    io::stderr().write_all(errors.as_bytes())?;
    say(text)
}

fn input() -> io::Result<Vec<u8>> {
    let mut input = Vec::new();
    io::stdin().read_to_end(&mut input)?;
    Ok(input)
}

fn say(text: &str) -> io::Result<ExitCode> {
    io::stdout().write_all(text.as_bytes())?;
    Ok(ExitCode::SUCCESS)
}

fn usage() -> io::Result<ExitCode> {
    eprintln!("{USAGE}");
    Ok(ExitCode::from(2))
}
