//! A bench with about 4,000 messages in its list, and lists of steps to be taken there.

use crate::conditions::one_of;
use crate::graphs::{wide, APART};
use crate::rounds::{graph, lent};
use crate::waiting::Waiting;
use second::bench::{Answer, Bench, Step, DELIVER, MOST_ROOM, OPEN};
use second::graph::Rows;
use second::lent::LentBench;
use second::prng::Prng;

const SEED: u64 = 4_000;
/// Three rounds fill the list. Each ends by itself or when so many messages are sent: the first does, the second is broken
/// off, and the third is in full swing when the list is full enough.
const UNTIL: [usize; 3] = [4_000, 3_300, 3_990];
/// Long lists, so that what is done once a list weighs little.
const STEPS: usize = 4_000;
/// So many different messages are delivered again, from all over the list.
const AGAIN: usize = 48;

pub struct Filled {
    pub rows: Rows,
    pub bench: Bench,
    pub lists: Vec<(&'static str, Vec<Step>)>,
}

impl Filled {
    pub fn new() -> Filled {
        let rows = wide(&mut Prng::for_script(SEED, 0), one_of);
        let mut waiting = Waiting::on(Bench::fresh(graph(&rows), MOST_ROOM));
        for (round, until) in (1..).zip(UNTIL) {
            waiting.numbers.clear();
            waiting.open(0, round);
            while waiting.bench.sent.len() < until && !waiting.numbers.is_empty() {
                waiting.deliver(0);
            }
        }
        Filled {
            lists: lists(&mut waiting),
            bench: waiting.bench,
            rows,
        }
    }

    /// The bench as the proved calls have it.
    pub fn lent(&self) -> LentBench {
        lent(&self.rows, &self.bench)
    }
}

fn lists(waiting: &mut Waiting) -> Vec<(&'static str, Vec<Step>)> {
    let next = fitting(waiting);
    let repeats = repeated(&again(waiting, Answer::Repeat));
    let old = repeated(&again(waiting, Answer::Old));
    let round = waiting.bench.highest + 1;
    let openings: Vec<Step> = (round..)
        .map(|round| [OPEN, APART as u64, round])
        .take(STEPS)
        .collect();
    let mut mixed: Vec<Step> = (0..STEPS)
        .map(|at| [&repeats, &old, &openings][at % 3][at])
        .collect();
    for (nth, step) in next.iter().enumerate() {
        mixed[nth * STEPS / next.len()] = *step;
    }
    vec![
        ("next deliveries of the round, sending", next),
        ("repeats", repeats),
        ("old messages", old),
        ("openings", openings),
        ("all of these mixed", mixed),
    ]
}

fn repeated(steps: &[Step]) -> Vec<Step> {
    steps.iter().copied().cycle().take(STEPS).collect()
}

/// The waiting messages delivered in order, as long as there is room. The bench is as before afterwards.
fn fitting(waiting: &mut Waiting) -> Vec<Step> {
    let bench = &mut waiting.bench;
    let (records, sent) = (bench.records.clone(), bench.sent.len());
    let deliveries = waiting
        .numbers
        .iter()
        .map(|number| [DELIVER, *number as u64, 0]);
    let steps = deliveries.take_while(|step| !matches!(bench.step(*step), Answer::Refused(_)));
    let steps = steps.collect();
    bench.records = records;
    bench.sent.truncate(sent);
    steps
}

/// Deliveries of messages that were delivered before and get this answer, which changes nothing.
fn again(waiting: &mut Waiting, answer: Answer) -> Vec<Step> {
    let delivered = waiting.steps.iter().filter(|step| step[0] == DELIVER);
    let fits = |step: &&Step| waiting.bench.step(**step) == answer;
    let steps: Vec<Step> = delivered.filter(fits).copied().collect();
    let apart = steps.len().div_ceil(AGAIN);
    steps.into_iter().step_by(apart).collect()
}
