//! What the paper says of every run from a fresh start, looked at while our own bench runs.
//! Two programs could share a mistake; these sentences are about the graph and not about the messages.

use crate::bench::{Answer, Bench, Step, DELIVER, OPEN};
use crate::graph::{Graph, NodeSet};
use crate::node::Verdict;
use crate::reduction::{deadlocked, evidence, freed_from, reachable};
use crate::replay::Outcome;
use std::collections::BTreeSet;

#[derive(Default)]
pub struct Laws {
    rounds_opened: usize,
    arrived: BTreeSet<usize>,
    ended: BTreeSet<u64>,
    broken: Option<String>,
}

impl Laws {
    pub fn watch(&mut self, bench: &Bench, step: Step, answer: Answer) {
        match (step, answer) {
            ([kind, ..], Answer::Refused(12)) => {
                self.room_ran_out(bench, self.rounds_opened + usize::from(kind == OPEN))
            }
            (_, Answer::Refused(_)) => {}
            ([OPEN, node, round], Answer::Opened(verdict)) => {
                self.rounds_opened += 1;
                self.ends(bench, node as usize, round, verdict);
            }
            ([DELIVER, number, _], Answer::Taken(verdict)) => {
                self.arrived.insert(number as usize);
                let message = bench.sent[number as usize];
                self.ends(bench, message.to, message.round, verdict);
            }
            ([DELIVER, number, _], Answer::Old | Answer::Repeat) => {
                self.arrived.insert(number as usize);
            }
            _ => self.must(false, || format!("{step:?} was answered {answer}")),
        }
    }

    /// The first law found broken, also the one that can be judged only at the end of a run.
    pub fn broken(mut self, outcome: &Outcome) -> Option<String> {
        if let Outcome::Ran(_, bench) = outcome {
            let newest = bench.highest;
            let mut numbered = bench.sent.iter().enumerate();
            let arrived = numbered
                .all(|(number, message)| message.round != newest || self.arrived.contains(&number));
            let ended = newest == 0 || self.ended.contains(&newest);
            self.must(ended || !arrived, || {
                format!("round {newest} did not end though all of it arrived")
            });
        }
        self.broken
    }

    fn must(&mut self, law_holds: bool, broken: impl FnOnce() -> String) {
        if !law_holds {
            self.broken.get_or_insert_with(broken);
        }
    }

    fn room_ran_out(&mut self, bench: &Bench, rounds: usize) {
        let room = bench.room();
        self.must(4 * bench.graph.edges() * rounds > room, || {
            format!("12 with {rounds} rounds in a room of {room}")
        });
    }

    /// What must hold at the step that gives a verdict.
    fn ends(&mut self, bench: &Bench, node: usize, round: u64, verdict: Option<Verdict>) {
        let Some(verdict) = verdict else { return };
        let once = self.ended.insert(round);
        self.must(once, || format!("round {round} ended twice"));
        let stuck = deadlocked(&bench.graph).contains(&node);
        self.must(stuck == (verdict == Verdict::Deadlocked), || {
            format!("round {round} says {verdict:?}, the reduction otherwise")
        });
        let reached = reachable(&bench.graph, node);
        let freed = freed_from(&bench.graph, &reached);
        let of_it = bench.sent.iter().filter(|message| message.round == round);
        let sent = of_it.count();
        self.must(sent == count(&bench.graph, &reached, &freed), || {
            format!("round {round} has sent {sent}, not as the paper counts")
        });
        if round == bench.highest {
            // The graph and the initiator say who these are, so the order of the messages can't.
            let (called, free) = (bench.called_in(round), bench.free_in(round));
            self.must(called == reached, || {
                format!("round {round} has called {called:?}, not whom its initiator reaches")
            });
            self.must(free == freed, || {
                format!("round {round} has freed {free:?}, not whom the reduction frees")
            });
            self.must(
                !stuck || &called - &free == evidence(&bench.graph, node),
                || format!("round {round} has not called its evidence"),
            );
        }
    }
}

/// The paper's count: two for each edge leaving a reachable node, and two for each edge entering a node freed by a
/// reduction that starts only from reachable active nodes.
fn count(graph: &Graph, reached: &NodeSet, freed: &NodeSet) -> usize {
    let out = reached.iter().map(|node| graph.nodes[*node].out.len());
    let into = freed.iter().map(|node| graph.nodes[*node].into.len());
    2 * out.sum::<usize>() + 2 * into.sum::<usize>()
}
