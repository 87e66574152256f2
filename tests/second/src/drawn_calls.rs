//! Which call of a trial is of which kind, and how it is drawn.

use crate::drawn_alone;
use crate::drawn_benches;
use crate::drawn_questions::{list, node, room, rows, rows_for_a_list};
use crate::library::LibraryCall::{self, *};
use crate::prng::Prng;

/// Taken in turn. Those with most to show come most often.
const DRAWS: [fn(&mut Prng) -> LibraryCall; 21] = [
    check,
    deliver,
    step,
    write_evidence,
    run,
    deadlocked,
    deliver,
    step,
    check_evidence,
    open,
    all_deadlocked,
    waiting_on,
    deliver,
    step,
    ring,
    run,
    check,
    deliver,
    step,
    check_evidence,
    run,
];

/// Seed and index settle the call.
pub fn draw(seed: u64, index: u64) -> LibraryCall {
    let rng = &mut Prng::for_script(seed, index);
    DRAWS[(index % DRAWS.len() as u64) as usize](rng)
}

fn check(rng: &mut Prng) -> LibraryCall {
    Check(rows(rng))
}

fn deadlocked(rng: &mut Prng) -> LibraryCall {
    let rows = rows(rng);
    let node = node(rng, &rows);
    Deadlocked(rows, node)
}

fn all_deadlocked(rng: &mut Prng) -> LibraryCall {
    AllDeadlocked(rows(rng), rng.next())
}

fn write_evidence(rng: &mut Prng) -> LibraryCall {
    let rows = rows(rng);
    let node = node(rng, &rows);
    let room = room(rng, &rows);
    WriteEvidence(rows, node, room)
}

fn check_evidence(rng: &mut Prng) -> LibraryCall {
    let rows = rows_for_a_list(rng);
    let node = node(rng, &rows);
    let list = list(rng, &rows, node);
    CheckEvidence(rows, node, list)
}

fn ring(rng: &mut Prng) -> LibraryCall {
    let rows = rows(rng);
    let node = node(rng, &rows);
    Ring(rows, node)
}

fn waiting_on(rng: &mut Prng) -> LibraryCall {
    let rows = rows(rng);
    let node = node(rng, &rows);
    In(rows, node, rng.next())
}

fn open(rng: &mut Prng) -> LibraryCall {
    let (alone, _) = drawn_alone::draw(rng);
    let round = drawn_alone::round(rng, &alone);
    Open(alone, round)
}

fn deliver(rng: &mut Prng) -> LibraryCall {
    let (alone, letter) = drawn_alone::draw(rng);
    Deliver(alone, letter)
}

fn step(rng: &mut Prng) -> LibraryCall {
    let (bench, step) = drawn_benches::with_a_step(rng);
    Step(bench, step)
}

fn run(rng: &mut Prng) -> LibraryCall {
    let (bench, steps, answers) = drawn_benches::with_steps(rng);
    Run(bench, steps, answers)
}
