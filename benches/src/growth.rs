//! Whether a step's work grows with the messages sent before it.

use crate::filled::Filled;
use crate::proved;
use crate::rounds::take;
use crate::table::Table;
use crate::timing::fastest;
use second::bench::{Bench, Step, DELIVER};
use second::codes::step_number;
use second::lent::LentBench;
use second::library::SAID;
use second::node::Record;
use std::collections::BTreeSet;
use std::hint::black_box;

pub fn measure() {
    let filled = Filled::new();
    let title = "proved steps with many messages sent";
    let many = format!("{} sent", filled.bench.sent.len());
    let table = Table::new(title, [&many, "few sent"], "step");
    for (name, steps) in &filled.lists {
        let mut many = Again::new(filled.lent(), steps);
        let mut few = many.with_few(steps);
        assert_same(name, &mut many, &mut few);
        table.row(name, alone(&mut many, &mut few));
    }
    // What comes once a list is the same whatever its steps are.
    let mut many = Again::new(filled.lent(), &[[DELIVER, 0, 0]]);
    let mut few = many.with_few(&[[DELIVER, 0, 0]]);
    table.row(
        "the check of a list, once a list",
        checks(&mut many, &mut few),
    );
    table.row(
        "a step by itself, checked each time",
        both(&mut many, &mut few, Again::step),
    );
    against_second(filled);
}

/// A bench that steps are taken on again and again, each time from the same state.
struct Again {
    bench: LentBench,
    start: Start,
    steps: Vec<u64>,
    answers: Vec<u64>,
}

/// What steps change of a bench, but for the messages that they add after those sent.
struct Start {
    records: Vec<u64>,
    sent: u64,
    highest: u64,
}

impl Again {
    fn new(bench: LentBench, steps: &[Step]) -> Again {
        Again {
            start: Start {
                records: bench.records.clone(),
                sent: bench.sent,
                highest: bench.highest,
            },
            bench,
            steps: steps.iter().map(|step| step_number(*step)).collect(),
            answers: vec![0; steps.len()],
        }
    }

    /// The same records and steps, but only those messages in the list that the steps deliver.
    fn with_few(&self, steps: &[Step]) -> Again {
        let delivered: BTreeSet<u64> = steps
            .iter()
            .filter(|step| step[0] == DELIVER)
            .map(|step| step[1])
            .collect();
        let mut messages = self.bench.messages.clone();
        for (place, number) in delivered.iter().enumerate() {
            messages[place] = self.bench.messages[*number as usize];
        }
        let bench = LentBench {
            rows: self.bench.rows.clone(),
            records: self.start.records.clone(),
            messages,
            sent: delivered.len() as u64,
            highest: self.start.highest,
        };
        let place = |number| delivered.range(..number).count() as u64;
        let moved = |step: &Step| match *step {
            [DELIVER, number, b] => [DELIVER, place(number), b],
            other => other,
        };
        let steps: Vec<Step> = steps.iter().map(moved).collect();
        Again::new(bench, &steps)
    }

    fn start_again(&mut self) {
        self.bench.records.copy_from_slice(&self.start.records);
        (self.bench.sent, self.bench.highest) = (self.start.sent, self.start.highest);
    }

    fn run(&mut self) -> u64 {
        self.start_again();
        proved::run(&mut self.bench, black_box(&self.steps), &mut self.answers)
    }

    fn run_nothing(&mut self) -> u64 {
        self.start_again();
        proved::run(&mut self.bench, black_box(&[]), &mut [])
    }

    /// The first message of the list is an old one, which changes nothing.
    fn step(&mut self) -> u64 {
        proved::step(&mut self.bench, black_box([DELIVER, 0, 0]))
    }
}

/// The answers are the same but for the count of messages, which differs by those that aren't there.
fn assert_same(name: &str, many: &mut Again, few: &mut Again) {
    assert_eq!((many.run(), few.run()), (SAID, SAID), "{name}");
    let absent = (many.start.sent - few.start.sent) << 16;
    let expected: Vec<u64> = few.answers.iter().map(|answer| answer + absent).collect();
    assert!(many.answers == expected, "{name}: answers differ");
}

/// Nanoseconds a step: an empty list, which is checked like any other, is taken off.
fn alone(many: &mut Again, few: &mut Again) -> [f64; 2] {
    let steps = many.steps.len() as f64;
    let empty = checks(many, few);
    let whole = both(many, few, Again::run);
    [0, 1].map(|side| (whole[side] - empty[side]) / steps)
}

/// Nanoseconds a list that has no steps.
fn checks(many: &mut Again, few: &mut Again) -> [f64; 2] {
    both(many, few, Again::run_nothing)
}

fn both(many: &mut Again, few: &mut Again, work: fn(&mut Again) -> u64) -> [f64; 2] {
    let mut many = || {
        black_box(work(many));
    };
    let mut few = || {
        black_box(work(few));
    };
    fastest([&mut many, &mut few])
}

/// The second program's bench, from the same state each time.
struct Theirs {
    bench: Bench,
    records: Vec<Record>,
    sent: usize,
    highest: u64,
}

impl Theirs {
    fn new(bench: Bench) -> Theirs {
        Theirs {
            records: bench.records.clone(),
            sent: bench.sent.len(),
            highest: bench.highest,
            bench,
        }
    }

    fn run(&mut self, steps: &[Step]) -> Vec<u64> {
        self.bench.records.clone_from(&self.records);
        self.bench.sent.truncate(self.sent);
        self.bench.highest = self.highest;
        take(&mut self.bench, steps)
    }
}

/// The same steps on the second program's bench, with as many messages sent.
fn against_second(filled: Filled) {
    let title = format!("steps with {} messages sent", filled.bench.sent.len());
    let table = Table::new(&title, ["proved", "second"], "step");
    let lent = |steps: &[Step]| Again::new(filled.lent(), steps);
    let mut ours: Vec<Again> = filled.lists.iter().map(|(_, steps)| lent(steps)).collect();
    let mut theirs = Theirs::new(filled.bench);
    for ((name, steps), ours) in filled.lists.iter().zip(&mut ours) {
        ours.run();
        assert!(ours.answers == theirs.run(steps), "{name}: answers differ");
        let whole = beside(ours, Again::run, &mut theirs, steps);
        let empty = beside(ours, Again::run_nothing, &mut theirs, &[]);
        let a_step = |side: usize| (whole[side] - empty[side]) / steps.len() as f64;
        table.row(name, [0, 1].map(a_step));
    }
}

fn beside(
    ours: &mut Again,
    work: fn(&mut Again) -> u64,
    theirs: &mut Theirs,
    steps: &[Step],
) -> [f64; 2] {
    let mut proved = || {
        black_box(work(ours));
    };
    let mut second = || {
        black_box(theirs.run(black_box(steps)));
    };
    fastest([&mut proved, &mut second])
}
