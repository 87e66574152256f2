//! Whole rounds on the bench, from a fresh start until nothing waits.

use crate::conditions::{all_of, any_of, one_of, some_of, Condition};
use crate::graphs::wide;
use crate::proved;
use crate::table::Table;
use crate::timing::fastest;
use crate::waiting::Waiting;
use second::bench::{Bench, Step, MOST_ROOM};
use second::codes::{answer_code, step_number};
use second::graph::{Graph, Rows};
use second::lent::LentBench;
use second::library::SAID;
use second::node::Record;
use second::prng::Prng;
use std::hint::black_box;

const SEED: u64 = 64;

/// What the nodes wait for, and whether messages are delivered in any order or in that of the list.
const ROUNDS: [(&str, Condition, bool); 5] = [
    ("one of each set, in order", one_of, false),
    ("one of each set, in any order", one_of, true),
    ("counts, in order", some_of, false),
    ("counts and sets, in any order", any_of, true),
    ("all of each set, in order", all_of, false),
];

pub fn measure() {
    let title = "a round on 64 nodes and 512 edges";
    let table = Table::new(title, ["proved", "second"], "step");
    for (name, condition, any_order) in ROUNDS {
        let round = Round::new(condition, any_order);
        round.assert_same(name);
        let whole = round.judging_rows();
        table.row(name, whole);
        table.row("  the same, the graph judged before", round.graph_ready());
        let a_second = whole.map(|step| (1e9 / step) as u64);
        table.note(&format!(
            "{} steps, {} messages; {} and {} steps a second",
            round.steps.len(),
            round.steps.len() - 1,
            a_second[0],
            a_second[1]
        ));
    }
}

struct Round {
    rows: Rows,
    steps: Vec<Step>,
    numbers: Vec<u64>,
}

impl Round {
    fn new(condition: Condition, any_order: bool) -> Round {
        let rng = &mut Prng::for_script(SEED, 0);
        let rows = wide(rng, condition);
        let mut waiting = Waiting::on(Bench::fresh(graph(&rows), MOST_ROOM));
        waiting.open(0, 1);
        while !waiting.numbers.is_empty() {
            let most = if any_order { waiting.numbers.len() } else { 1 };
            waiting.deliver(rng.below(most));
        }
        let numbers = waiting
            .steps
            .iter()
            .map(|step| step_number(*step))
            .collect();
        Round {
            rows,
            steps: waiting.steps,
            numbers,
        }
    }

    fn assert_same(&self, name: &str) {
        let mut bench = self.bench();
        let mut proved = lent(&self.rows, &bench);
        let mut answers = vec![0; self.steps.len()];
        let result = proved::run(&mut proved, &self.numbers, &mut answers);
        let expected = take(&mut bench, &self.steps);
        let second = lent(&self.rows, &bench);
        assert_eq!(result, SAID, "{name}: the list of steps");
        assert!(answers == expected, "{name}: answers differ");
        assert!(proved.records == second.records, "{name}: records differ");
        assert!(
            proved.messages == second.messages,
            "{name}: messages differ"
        );
    }

    /// Both judge the rows once and start afresh.
    fn judging_rows(&self) -> [f64; 2] {
        let mut lent = lent(&self.rows, &self.bench());
        let mut answers = vec![0; self.steps.len()];
        let mut proved = || run(&mut lent, &self.numbers, &mut answers);
        let mut second = || {
            let mut bench = black_box(self).bench();
            black_box(take(&mut bench, &self.steps));
        };
        fastest([&mut proved, &mut second]).map(|pass| pass / self.steps.len() as f64)
    }

    /// The steps alone: an empty list, which is judged like any other, is taken off the proved time, and the second program has
    /// its graph ready.
    fn graph_ready(&self) -> [f64; 2] {
        let mut bench = self.bench();
        let mut full = lent(&self.rows, &bench);
        let mut empty = lent(&self.rows, &bench);
        let mut answers = vec![0; self.steps.len()];
        let mut proved = || run(&mut full, &self.numbers, &mut answers);
        let mut judged = || run(&mut empty, &[], &mut []);
        let mut second = || {
            bench.records.fill(Record::default());
            bench.sent.clear();
            bench.highest = 0;
            black_box(take(&mut bench, &self.steps));
        };
        let [list, nothing, second] = fastest([&mut proved, &mut judged, &mut second]);
        [list - nothing, second].map(|pass| pass / self.steps.len() as f64)
    }

    fn bench(&self) -> Bench {
        Bench::fresh(graph(&self.rows), MOST_ROOM)
    }
}

/// From a fresh start.
fn run(lent: &mut LentBench, numbers: &[u64], answers: &mut [u64]) {
    lent.records.fill(0);
    (lent.sent, lent.highest) = (0, 0);
    black_box(proved::run(black_box(lent), black_box(numbers), answers));
}

pub fn graph(rows: &Rows) -> Graph {
    let Ok(graph) = rows.graph() else {
        panic!("a graph that isn't accepted");
    };
    graph
}

/// The bench as numbers, with all the room that there may be.
pub fn lent(rows: &Rows, bench: &Bench) -> LentBench {
    let free = vec![0; MOST_ROOM as usize - bench.sent.len()];
    LentBench::of(rows.clone(), bench, &free)
}

/// The answers, each with the messages sent so far, as the proved list has them.
pub fn take(bench: &mut Bench, steps: &[Step]) -> Vec<u64> {
    let one = |step: &Step| {
        let code = answer_code(bench.step(*step));
        (bench.sent.len() as u64) << 16 | code
    };
    steps.iter().map(one).collect()
}
