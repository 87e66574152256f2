//! Steps drawn on a bench of our own, so that they deliver what is really there, and spoil what can be spoilt.

use crate::bench::{Answer, Bench, Step, DELIVER, LAST_ROUND, OPEN};
use crate::plan::Plan;
use crate::prng::Prng;
use crate::script::{LARGEST_PLACE, LARGEST_STEP_KIND};

#[derive(Clone, Copy)]
enum Order {
    First,
    Last,
    Any,
}

/// A list of steps in the making, with what is known of its messages so far.
struct Draft<'a> {
    rng: &'a mut Prng,
    bench: Bench,
    steps: Vec<Step>,
    waiting: Vec<usize>,
    late: Vec<usize>,
    delivered: Vec<usize>,
}

pub fn draw(rng: &mut Prng, bench: Bench, plan: Plan) -> Vec<Step> {
    let mut draft = Draft {
        rng,
        bench,
        steps: Vec::new(),
        waiting: Vec::new(),
        late: Vec::new(),
        delivered: Vec::new(),
    };
    draft.run(plan);
    draft.steps
}

impl Draft<'_> {
    fn run(&mut self, mut plan: Plan) {
        let orders = [Order::First, Order::Last, Order::Any, Order::Any];
        let order = *self.rng.pick(&orders);
        while self.steps.len() < plan.steps {
            if self.rng.chance(plan.noise) {
                self.noise();
            } else if !self.delivered.is_empty() && self.rng.chance(plan.repeat) {
                let again = *self.rng.pick(&self.delivered);
                self.deliver(again);
            } else if plan.rounds > 0 && self.opening_is_due(plan) {
                self.open_next(plan);
                plan.rounds -= 1;
            } else if let Some(message) = self.next_waiting(order) {
                if self.rng.chance(plan.late) {
                    self.late.push(message);
                } else if !self.rng.chance(plan.loss) {
                    self.deliver(message);
                }
            } else if !self.late.is_empty() {
                // Everything else is through: now the late ones come, and nothing is put aside any more.
                plan.late = 0;
                self.waiting.append(&mut self.late);
            } else {
                break;
            }
        }
    }

    fn opening_is_due(&mut self, plan: Plan) -> bool {
        self.waiting.is_empty() || self.rng.chance(plan.overlap)
    }

    fn next_waiting(&mut self, order: Order) -> Option<usize> {
        let last = self.waiting.len().checked_sub(1)?;
        Some(self.waiting.remove(match order {
            Order::First => 0,
            Order::Last => last,
            Order::Any => self.rng.below(last + 1),
        }))
    }

    fn deliver(&mut self, message: usize) {
        // b is not looked at when a message is delivered, so now and then it is anything.
        let b = if self.rng.chance(5) {
            self.rng.next() & LARGEST_PLACE
        } else {
            0
        };
        match self.take([DELIVER, message as u64, b]) {
            // It hasn't arrived; it may be tried again, but not for ever.
            Answer::Refused(12) if self.rng.chance(30) => self.waiting.push(message),
            Answer::Refused(_) => {}
            _ => self.delivered.push(message),
        }
    }

    fn open_next(&mut self, plan: Plan) {
        let node = self.rng.below(self.bench.graph.len()) as u64;
        let above = self.bench.highest.max(plan.rounds_above);
        let round = above + self.rng.between(1, plan.stride) as u64;
        self.take([OPEN, node, round]);
    }

    /// Writes the step down and takes it on our own bench, so that its new messages are known.
    fn take(&mut self, step: Step) -> Answer {
        let before = self.bench.sent.len();
        let answer = self.bench.step(step);
        self.steps.push(step);
        self.waiting.extend(before..self.bench.sent.len());
        answer
    }

    fn noise(&mut self) {
        let nodes = self.bench.graph.len() as u64;
        let sent = self.bench.sent.len() as u64;
        let highest = self.bench.highest;
        let rng = &mut *self.rng;
        let node = rng.below(nodes as usize) as u64;
        let no_node = *rng.pick(&[nodes, nodes + 1, 64, 255, 256, LARGEST_PLACE]);
        let bad_round = *rng.pick(&[0, highest, highest / 2, LAST_ROUND + 1, LARGEST_PLACE]);
        let no_message = *rng.pick(&[sent, sent + 1, LARGEST_PLACE]);
        let no_kind = *rng.pick(&[2, 3, 256, LARGEST_STEP_KIND]);
        // Any message at all, also one that was thrown away long ago.
        let any_message = rng.below(sent as usize + 1) as u64;
        let step = *rng.pick(&[
            [OPEN, no_node, highest + 1],
            [OPEN, no_node, bad_round],
            [OPEN, node, bad_round],
            [DELIVER, no_message, 0],
            [DELIVER, any_message, 0],
            [no_kind, node, highest + 1],
        ]);
        self.take(step);
    }
}
