//! `mornings`: what is found about the paper's mornings, every answer computed here.

use crate::bench::{Step, DELIVER, MOST_ROOM, OPEN};
use crate::full_round::{FullRound, Order, NEWEST_FIRST, OLDEST_FIRST};
use crate::graph::{Refusal, Row, Rows};
use crate::morning_graphs::*;
use crate::node::{Call, Verdict};
use crate::questions;
use crate::reduction::{self, Judged, Ring};
use crate::replay;
use crate::script::Script;
use std::fmt::Display;

pub fn text() -> String {
    let parts = [
        ("The mornings", mornings()),
        ("Lists", lists()),
        ("Questions", hard_questions()),
        ("Bad graphs", bad_graphs()),
        ("Runs", runs()),
        ("Orders", orders()),
    ];
    let texts = parts.map(|(title, lines)| format!("{title}\n{}\n", lines.join("\n")));
    texts.join("\n")
}

fn mornings() -> Vec<String> {
    let table = [
        ("1", morning_1()),
        ("2", morning_2()),
        ("4", morning_4()),
        ("5", active_nodes(1)),
        ("6", morning_6()),
        ("10", morning_10()),
        ("9, 2 of 3", morning_9(2)),
        ("9, 1 of 3", morning_9(1)),
        ("9, 3 of 3", morning_9(3)),
        ("9, 0 of 3", morning_9(0)),
        ("9, 4 of 3", morning_9(4)),
        ("11, 64 nodes", active_nodes(64)),
        ("11, 65 nodes", active_nodes(65)),
        ("11, 512 edges", edges_512()),
        ("11, 513 edges", edges_513()),
    ];
    let mut lines = Vec::new();
    for (name, rows) in table {
        lines.push(format!("morning {name}: {}", acceptance(&rows)));
        if let Ok(graph) = rows.graph() {
            let deadlocked = listed(reduction::deadlocked(&graph));
            lines.push(format!("  deadlocked {deadlocked}"));
            lines.extend((0..rows.nodes).map(|node| format!("  {}", about_node(&rows, node))));
        }
    }
    lines
}

/// Some are wrong in more than one way, so that it is seen which is said.
fn lists() -> Vec<String> {
    let rows = morning_2();
    let mut lines = vec![
        about_list(&rows, 0, &[0, 2, 3, 4, 6, 7]),
        about_list(&rows, 0, &[7, 0, 6, 2, 4, 3, 0, 7]),
        about_list(&rows, 0, &[0, 2, 3, 4, 7, 6]),
        about_list(&rows, 0, &[0, 2, 3, 4, 6, 7, 7]),
        about_list(&rows, 0, &[0, 0, 2, 3, 4, 6, 7]),
        about_list(&rows, 0, &[0, 2, 4]),
        about_list(&rows, 0, &[4, 2, 0]),
        about_list(&rows, 8, &[4, 2, 0]),
        about_list(&rows, 8, &[0, 2, 4]),
        about_list(&rows, 8, &[0, 2, 3, 4, 6, 7]),
        about_list(&rows, 0, &[0, 2, 3, 4, 6, 7, 9]),
        about_list(&rows, 9, &[9]),
    ];
    lines.extend((0..rows.nodes).map(|node| about_list(&rows, node, &[])));
    lines
}

/// Questions with something wrong or just right about them, often two things at once so that the order is seen.
fn hard_questions() -> Vec<String> {
    let good = morning_2();
    let row_over = Rows {
        nodes: 9,
        ..morning_2()
    };
    let bad_kind = with_row(&good, 4, [3, 0, 0, 0, 0, 0]);
    vec![
        about_node(&good, 10),
        about_node(&good, u64::MAX),
        about_node(&row_over, 10),
        about_list(&good, 0, &[0, 2, 3, 4, 6, 7, 255]),
        about_list(&good, 1, &[10]),
        about_list(&good, 0, &[2, 0, 10]),
        about_list(&good, 0, &[10, 10]),
        about_list(&good, 10, &[10]),
        about_list(&good, 10, &[2, 0]),
        about_list(&row_over, 10, &[10]),
        about_list(&row_over, 10, &[2, 0]),
        about_room(&good, 0, 9),
        about_room(&good, 1, 9),
        about_room(&good, 10, 9),
        about_room(&row_over, 10, 9),
        about_room(&good, 1, 10),
        about_room(&good, 0, 10),
        about_room(&good, 0, 12),
        about_node(&bad_kind, 0),
        about_list(&bad_kind, 0, &[0]),
        about_list(&bad_kind, 0, &[1, 0]),
        about_room(&bad_kind, 0, 12),
    ]
}

fn bad_graphs() -> Vec<String> {
    let counts = [
        ("no nodes", 0, 0),
        ("no nodes and a row", 0, 6),
        ("65 nodes", 65, 390),
        ("the largest count of nodes", u64::MAX, 6),
        ("two nodes and no row", 2, 0),
        ("two nodes and one row", 2, 6),
        ("two nodes and three rows", 2, 18),
        ("one node and five numbers", 1, 5),
        ("one node and seven numbers", 1, 7),
    ];
    let mut lines = Vec::new();
    for (name, nodes, count) in counts {
        let numbers = vec![0; count];
        let rows = Rows { nodes, numbers };
        lines.push(format!("{name}: {}", acceptance(&rows)));
    }
    for row in TRIED_ROWS {
        let rows = with_row(&active_nodes(3), 0, row);
        lines.push(format!("row {}: {}", listed(row), acceptance(&rows)));
    }
    // Each has the faults of the one before it as well, so the order of the numbers is seen.
    let mut rows = edges_513();
    lines.push(format!("513 edges: {}", acceptance(&rows)));
    let faults = [
        ("a threshold of 0", 60, [1, 0, 255, 0, 0, 0]),
        ("no set", 40, [2, 0, 0, 0, 0, 0]),
        ("kind 3", 41, [3, 0, 255, 0, 0, 0]),
        ("everything wrong", 40, [u64::MAX; 6]),
    ];
    for (fault, row, numbers) in faults {
        rows = with_row(&rows, row, numbers);
        lines.push(format!("and {fault} in row {row}: {}", acceptance(&rows)));
    }
    lines
}

/// First rows of a graph of three nodes: each fault with its neighbours just inside the rule.
#[rustfmt::skip]
const TRIED_ROWS: [Row; 36] = [
    // The kind.
    [3, 0, 0, 0, 0, 0], [u64::MAX, 0, 0, 0, 0, 0],
    // A member that is no node, at every kind.
    [1, 1, 8, 0, 0, 0], [2, 0, 2, 0, 0, 1 << 63], [2, 0, u64::MAX, 0, 0, 0], [0, 0, 0, 8, 0, 0], [1, 1, 2, 8, 0, 0],
    // The node itself.
    [1, 1, 1, 0, 0, 0], [2, 0, 2, 0, 0, 5], [0, 0, 1, 0, 0, 0],
    // The threshold.
    [0, 1, 0, 0, 0, 0], [1, 0, 6, 0, 0, 0], [1, 1, 6, 0, 0, 0], [1, 2, 6, 0, 0, 0], [1, 3, 6, 0, 0, 0],
    [1, u64::MAX, 6, 0, 0, 0], [1, 0, 0, 0, 0, 0], [1, 1, 0, 0, 0, 0], [2, 1, 6, 0, 0, 0],
    // Sets that the kind doesn't have.
    [0, 0, 2, 0, 0, 0], [0, 0, 0, 0, 0, 2], [1, 1, 6, 2, 0, 0], [1, 1, 6, 0, 2, 0], [1, 1, 6, 0, 0, 2],
    // No set, or one inside another.
    [2, 0, 0, 0, 0, 0], [2, 0, 2, 6, 0, 0], [2, 0, 6, 2, 0, 0], [2, 0, 2, 0, 6, 0], [2, 0, 2, 0, 0, 6],
    [2, 0, 0, 2, 6, 0], [2, 0, 0, 6, 0, 2], [2, 0, 0, 0, 6, 6],
    [2, 0, 2, 4, 0, 0], [2, 0, 0, 0, 6, 0], [2, 0, 0, 4, 0, 2], [0, 0, 0, 0, 0, 0],
];

fn runs() -> Vec<String> {
    let open = |round: u64| [OPEN, 0, round];
    let take = |message: u64| [DELIVER, message, 0];
    let in_order = [open(1), take(0), take(1), take(2), take(3)];
    let withheld = [
        open(1),
        take(0),
        open(2),
        take(2),
        take(3),
        take(4),
        take(5),
        take(1),
    ];
    let twice = [open(1), take(0), take(0)];
    let rounds = [9, 10, 9, 65_535, 65_536, 65_535].map(open);
    vec![
        about_run("morning 6", morning_6(), &in_order),
        about_run("morning 7", morning_6(), &withheld),
        about_run("morning 8", morning_6(), &twice),
        about_run("morning 11, rounds", active_nodes(1), &rounds),
    ]
}

fn about_run(label: &str, rows: Rows, steps: &[Step]) -> String {
    let script = Script {
        rows,
        room: 16,
        steps: steps.to_vec(),
    };
    let lines = replay::replay(script.text().as_bytes()).to_string();
    format!("{label}\n{}", lines.trim_end())
}

fn acceptance(rows: &Rows) -> String {
    let edges = rows.graph().map(|graph| graph.edges());
    said(edges, |edges| format!("accepted, edges {edges}"))
}

fn about_node(rows: &Rows, node: u64) -> String {
    let claim = said(questions::is_deadlocked(rows, node), deadlocked_or_not);
    let ring = said(questions::ring(rows, node), |ring| match ring {
        Ring::NotDeadlocked => "no ring",
        Ring::In => "in the ring",
        Ring::Behind => "behind the ring",
    });
    let mut room = [0u8; 64];
    let written = questions::write_evidence(rows, node, &mut room);
    let evidence = said(written, |written| listed(&room[..written]));
    let round = about_round(rows, node);
    format!("node {node}: {claim}, {ring}, evidence {evidence}, a round {round}")
}

fn about_round(rows: &Rows, node: u64) -> String {
    match rows.graph() {
        Ok(graph) => outcome(&FullRound::run(graph, MOST_ROOM, node, OLDEST_FIRST)),
        Err(_) => String::from("is refused 13 row 0"),
    }
}

fn outcome(round: &FullRound) -> String {
    if let Some(number) = round.refusal() {
        return format!("is refused {number} row 0");
    }
    let verdict = round.verdict();
    let says = verdict.map_or("nothing", |verdict| {
        deadlocked_or_not(verdict == Verdict::Deadlocked)
    });
    format!("sends {} and says {says}", round.bench.sent.len())
}

/// One round in two orders: the same end, with another caller and other messages.
fn orders() -> Vec<String> {
    let mut lines = about_order("oldest first", OLDEST_FIRST);
    lines.extend(about_order("newest first", NEWEST_FIRST));
    lines
}

fn about_order(label: &str, order: Order) -> Vec<String> {
    let Ok(graph) = two_callers().graph() else {
        unreachable!("its rows are accepted");
    };
    let round = FullRound::run(graph, 12, 0, order);
    let (outcome, bench) = (outcome(&round), round.bench);
    let (called, free) = (listed(bench.called_in(1)), listed(bench.free_in(1)));
    let mut lines = vec![format!(
        "{label}: a round {outcome}, called {called}, free {free}"
    )];
    for (node, record) in bench.records.iter().enumerate() {
        if let Call::By(caller) = record.call {
            lines.push(format!("node {node} called by {caller}"));
        }
    }
    let messages = bench.sent.iter().enumerate();
    lines.extend(messages.map(|(number, message)| format!("message {number} {message}")));
    lines
}

fn about_list(rows: &Rows, node: u64, list: &[u8]) -> String {
    let judged = questions::judge_list(rows, node, list);
    let judged = said(judged, |judged| match judged {
        Judged::Passes => String::from("passes"),
        Judged::ClaimMissing => String::from("fails, the claim isn't in it"),
        Judged::Satisfied(member) => format!("fails at member {member}"),
    });
    format!("list {} for {node}: {judged}", listed(list))
}

/// The room is filled with 255 before the call, so that untouched bytes can be told.
fn about_room(rows: &Rows, node: u64, size: usize) -> String {
    let mut room = vec![255u8; size];
    let written = questions::write_evidence(rows, node, &mut room);
    let written = said(written, |written| written);
    format!("room {size} for {node}: {written}, bytes {}", listed(&room))
}

/// The answer in words, or the refusal.
fn said<Given, Words: Display>(
    answer: Result<Given, Refusal>,
    words: impl Fn(Given) -> Words,
) -> String {
    match answer {
        Ok(given) => words(given).to_string(),
        Err(refusal) => refusal.to_string(),
    }
}

fn deadlocked_or_not(deadlocked: bool) -> &'static str {
    if deadlocked {
        "deadlocked"
    } else {
        "not deadlocked"
    }
}

fn listed<Item: Display>(items: impl IntoIterator<Item = Item>) -> String {
    let words: Vec<String> = items.into_iter().map(|item| item.to_string()).collect();
    if words.is_empty() {
        String::from("none")
    } else {
        words.join(" ")
    }
}
