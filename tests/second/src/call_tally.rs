//! What a trial of calls has really tried. Everything that can occur is expected, and a long trial that misses any of it fails.

use crate::alone::Alone;
use crate::bench::MOST_ROOM;
use crate::call_words::{kind, kinds_sent, length, name, nodes, why_stray, words};
use crate::codes::Letter;
use crate::counts::Counts;
use crate::graph::{count_is_bad, Rows, MOST_EDGES};
use crate::lent::LentBench;
use crate::library::LibraryCall::{self, *};
use crate::library::SAID;
use crate::list_words::{disorder, if_in_order, strangeness};
use crate::questions::{ascends, named};
use crate::reduction::{everyone, leads_back, satisfied};
use std::fmt;
use std::process::ExitCode;

/// The calls that judge rows. Of a bench whose rows are refused it is said only that they are, with 13.
const JUDGES_OF_ROWS: [&str; 9] = [
    "check",
    "deadlocked",
    "all_deadlocked",
    "write_evidence",
    "check_evidence",
    "ring",
    "in",
    "open",
    "deliver",
];

/// An opening never ends deadlocked: a node that isn't free has waits.
#[rustfmt::skip]
const EXPECTED: [(&str, &str); 30] = [
    ("check:", "accepted, refused 1, refused 8"),
    ("deadlocked:", "no, yes, refused 1, refused 8, refused 9"),
    ("all_deadlocked:", "written, refused 1, refused 8"),
    ("write_evidence:", "none, some, refused 1, refused 8, refused 9, refused 15"),
    ("room for evidence:", "too small by one, too small by more, exact, larger by one, larger by more, of 0"),
    ("check_evidence:", "passes, lacks the claim, lacks the claim with a member satisfied, fails at a member, \
        refused 1, refused 8, refused 9, refused 14, refused 18"),
    ("list of evidence:", "of 0, of 1, of 2 to 64, of 65 to 199, of 200 and more, of all nodes and not refused, \
        of 64 nodes and not refused"),
    ("list out of order refused:", "1, 2, 3, 4, 5, 6, 7, 8, 9, 14, 18"),
    ("list refused 14:", "ascending, ascending to the node count, ascending and of more than 64, \
        wrong order before the strange entry, wrong order from the strange entry on"),
    ("list refused 18:", "equal neighbours only, a descending pair only, a repeat apart, only the first pair, \
        only the last pair, only a pair between, descending throughout, only past 64 places, of more than 64, \
        of 200 and more, would pass in order, would lack the claim in order, would fail at a member in order"),
    ("member named:", "active, the claim, at the first place, at a later place, not the last satisfied"),
    ("ring:", "not deadlocked, in, behind, behind with a path back, refused 1, refused 8, refused 9"),
    ("in:", "written, refused 1, refused 8, refused 9"),
    ("waiting on a node:", "nobody, one, several"),
    ("open:", "120, 122, refused 1, refused 9, refused 10, refused 13"),
    ("open 13 for:", "IN, a record's round, a record's call, a record's freed, a record's set"),
    ("controller of:", "1 node, 2 to 63 nodes, 64 nodes, 64 nodes and the last"),
    ("deliver:", "100, 101, 102, 110, 111, 112, refused 1, refused 9, refused 13"),
    ("deliver 13 for:", "IN, a record's round, a record's call, a record's freed, a record's set, a message's kind, \
        a message's sender, a message's receiver, a message of round 0, a message's round"),
    ("deliver stray for:", "the receiver, no neighbour, a higher round, a node not called, a node not free"),
    ("deliver sends:", "nothing, NOTIFY, GRANT, ACK, DONE, NOTIFY DONE, GRANT ACK, GRANT DONE, ACK DONE"),
    ("step:", "100, 101, 102, 110, 111, 112, 120, 122, refused 9, refused 10, refused 11, refused 12, refused 13"),
    ("step of kind:", "0, 1, 2, 3 to 65535, more, 2^63 and more"),
    ("bench 13 for:", "the graph, the length of the records, the sent count, the highest round, a record's round, \
        a record's call, a record's freed, a record's set, a message's kind, a message's sender, a message's receiver, \
        a message of round 0, a message's round"),
    ("run:", "of no steps, of steps, refused 13, refused 15"),
    ("run answers:", "9, 10, 11, 12, 100, 101, 102, 110, 111, 112, 120, 122"),
    ("places for answers:", "too few by one, too few by more, exact, more"),
    ("graph of:", "0 nodes, 1 node, 2 to 8 nodes, 9 to 63 nodes, 64 nodes, 65 nodes and more, 2^63 nodes and more, \
        512 edges"),
    ("message list:", "of 0, shorter than the room can be, of 4096, longer than the room, longer than the room and run full, \
        longer than the room and sent past it, run full"),
    ("bench of:", "1 node, 64 nodes, 1000 messages and more"),
];

const LIST: &str = "message list";
const OFFERED: &str = "list of evidence";
const MEMBER: &str = "member named";

pub struct CallTally {
    counts: Counts,
}

impl CallTally {
    pub fn new() -> CallTally {
        let mut counts = Counts::expecting(&EXPECTED);
        for name in JUDGES_OF_ROWS {
            for row in [0, 1] {
                let group = of_a_row(name, row) + ":";
                counts.expect(&group, "2, 3, 4, 5, 6, 7");
            }
        }
        CallTally { counts }
    }

    pub fn completeness(&self, trial: &str) -> ExitCode {
        self.counts.completeness(trial)
    }

    fn add(&mut self, group: &str, ending: &str) {
        self.counts.add(format!("{group}: {ending}"));
    }

    fn add_found(&mut self, seen: &[(bool, &str, &str)]) {
        for (_, group, ending) in seen.iter().filter(|(found, ..)| *found) {
            self.add(group, ending);
        }
    }

    /// Counts a call that has been made, by its result.
    pub fn count(&mut self, call: &LibraryCall, result: u64) {
        let name = name(call);
        match (result, result.checked_sub(SAID)) {
            (0, _) => self.add(name, "accepted"),
            (_, Some(said)) => self.add(name, &words(call, said)),
            (refusal, None) => self.refused(name, refusal % 256, refusal / 256),
        }
        match call {
            Check(rows) | Deadlocked(rows, _) | AllDeadlocked(rows, _) => self.graph(rows),
            Ring(rows, node) => {
                self.graph(rows);
                self.behind(rows, *node as usize, result);
            }
            WriteEvidence(rows, _, room) => {
                self.graph(rows);
                self.room(rows, room.len());
            }
            CheckEvidence(rows, node, list) => self.evidence(rows, *node as usize, list, result),
            In(rows, _, set) => {
                self.graph(rows);
                self.waiting(*set, result);
            }
            Open(alone, _) => {
                self.controller(alone);
                self.strange(name, result, alone, None);
            }
            Deliver(alone, letter) => {
                self.controller(alone);
                self.strange(name, result, alone, Some(*letter));
                self.delivered(alone, *letter, result);
            }
            Step(bench, step) => {
                self.add("step of kind", kind(*step));
                self.bench(bench, result, &[result]);
            }
            Run(bench, steps, answers) => self.run(bench, result, steps, answers),
        }
    }

    fn evidence(&mut self, rows: &Rows, node: usize, list: &[u8], result: u64) {
        self.graph(rows);
        self.list(rows, list, result);
        self.refused_list(rows, node, list, result);
        self.failing_list(rows, node, list, result);
    }

    fn waiting(&mut self, set: u64, result: u64) {
        if result >= SAID {
            let waiting = match set.count_ones() {
                0 => "nobody",
                1 => "one",
                _ => "several",
            };
            self.add("waiting on a node", waiting);
        }
    }

    fn refused(&mut self, name: &str, number: u64, row: u64) {
        match number {
            2..=7 => self.add(&of_a_row(name, row), &number.to_string()),
            _ => self.add(name, &format!("refused {number}")),
        }
    }

    fn graph(&mut self, rows: &Rows) {
        self.add("graph of", nodes(rows));
        if rows.graph().is_ok_and(|graph| graph.edges() == MOST_EDGES) {
            self.add("graph of", "512 edges");
        }
    }

    /// A node behind the ring that gets back to itself, though through a free node: a path alone doesn't tell.
    fn behind(&mut self, rows: &Rows, node: usize, result: u64) {
        if let (Some(2), Ok(graph)) = (result.checked_sub(SAID), rows.graph()) {
            if leads_back(&graph, node, &everyone(&graph)) {
                self.add("ring", "behind with a path back");
            }
        }
    }

    fn room(&mut self, rows: &Rows, room: usize) {
        if count_is_bad(rows.nodes) {
            return;
        }
        if room == 0 {
            self.add("room for evidence", "of 0");
        }
        let ending = match room as i64 - rows.nodes as i64 {
            -1 => "too small by one",
            ..-1 => "too small by more",
            0 => "exact",
            1 => "larger by one",
            2.. => "larger by more",
        };
        self.add("room for evidence", ending);
    }

    fn list(&mut self, rows: &Rows, list: &[u8], result: u64) {
        let of_all = result > SAID && list.len() as u64 == rows.nodes;
        self.add_found(&[
            (true, OFFERED, length(list.len())),
            (of_all, OFFERED, "of all nodes and not refused"),
            (
                of_all && list.len() == 64,
                OFFERED,
                "of 64 nodes and not refused",
            ),
        ]);
        // Out of order it is always refused, but not always for that.
        if !ascends(list) {
            self.add("list out of order refused", &(result % 256).to_string());
        }
    }

    fn refused_list(&mut self, rows: &Rows, node: usize, list: &[u8], result: u64) {
        let endings = match (result, rows.graph()) {
            (14, Ok(graph)) => strangeness(&graph, list),
            (18, Ok(graph)) => [disorder(list), vec![if_in_order(&graph, node, list)]].concat(),
            _ => return,
        };
        for ending in endings {
            self.add(&format!("list refused {result}"), ending);
        }
    }

    /// Failing lists of which a careless judge might say something else: another fault, or another member.
    fn failing_list(&mut self, rows: &Rows, node: usize, list: &[u8], result: u64) {
        let (Some(said), Ok(graph)) = (result.checked_sub(SAID), rows.graph()) else {
            return;
        };
        let satisfied = satisfied(&graph, &named(list));
        match (said, satisfied.first()) {
            (2, Some(_)) => self.add("check_evidence", "lacks the claim with a member satisfied"),
            (256.., Some(member)) => {
                let at_first = usize::from(list[0]) == *member;
                self.add_found(&[
                    (graph.nodes[*member].is_active(), MEMBER, "active"),
                    (*member == node, MEMBER, "the claim"),
                    (at_first, MEMBER, "at the first place"),
                    (!at_first, MEMBER, "at a later place"),
                    (satisfied.len() > 1, MEMBER, "not the last satisfied"),
                ]);
            }
            _ => {}
        }
    }

    fn controller(&mut self, alone: &Alone) {
        let ending = match alone.nodes {
            1 => "1 node",
            2..=63 => "2 to 63 nodes",
            64 => "64 nodes",
            _ => return,
        };
        self.add("controller of", ending);
        if (alone.nodes, alone.me) == (64, 63) {
            self.add("controller of", "64 nodes and the last");
        }
    }

    fn strange(&mut self, name: &str, result: u64, alone: &Alone, letter: Option<Letter>) {
        if let (13, Some(strange)) = (result, alone.strange(letter)) {
            self.add(&format!("{name} 13 for"), strange);
        }
    }

    fn delivered(&mut self, alone: &Alone, letter: Letter, result: u64) {
        match result.checked_sub(SAID) {
            Some(101) => self.add("deliver stray for", why_stray(alone, letter)),
            Some(110..) => self.add("deliver sends", &kinds_sent(alone)),
            _ => {}
        }
    }

    /// Answers are results or codes: what matters here is only whether one of them is 12.
    fn bench(&mut self, bench: &LentBench, result: u64, answers: &[u64]) {
        if let (13, Err(strange)) = (result, bench.bench()) {
            self.add("bench 13 for", strange);
        }
        let room = bench.messages.len() as u64;
        let longer = room > MOST_ROOM;
        let ran_full = answers.contains(&12);
        let past_room = (MOST_ROOM + 1..=room).contains(&bench.sent);
        let seen = [
            (bench.rows.nodes == 1, "bench of", "1 node"),
            (bench.rows.nodes == 64, "bench of", "64 nodes"),
            (
                result != 13 && bench.sent >= 1000,
                "bench of",
                "1000 messages and more",
            ),
            (room == 0, LIST, "of 0"),
            (room < MOST_ROOM, LIST, "shorter than the room can be"),
            (room == MOST_ROOM, LIST, "of 4096"),
            (longer, LIST, "longer than the room"),
            (
                longer && ran_full,
                LIST,
                "longer than the room and run full",
            ),
            (
                longer && past_room,
                LIST,
                "longer than the room and sent past it",
            ),
            (ran_full, LIST, "run full"),
        ];
        self.add_found(&seen);
    }

    fn run(&mut self, bench: &LentBench, result: u64, steps: &[u64], answers: &[u64]) {
        let ending = match answers.len() as i64 - steps.len() as i64 {
            -1 => "too few by one",
            ..-1 => "too few by more",
            0 => "exact",
            1.. => "more",
        };
        self.add("places for answers", ending);
        let written = if result == SAID { steps.len() } else { 0 };
        let codes = answers[..written].iter().map(|answer| answer % SAID);
        let codes: Vec<u64> = codes.collect();
        for code in &codes {
            self.add("run answers", &code.to_string());
        }
        self.bench(bench, result, &codes);
    }
}

fn of_a_row(name: &str, row: u64) -> String {
    match row {
        0 => format!("{name} refused in row 0"),
        _ => format!("{name} refused in a later row"),
    }
}

impl fmt::Display for CallTally {
    fn fmt(&self, f: &mut fmt::Formatter) -> fmt::Result {
        self.counts.write_groups(f)
    }
}
