//! From row numbers to the deadlocked nodes, over a thousand graphs.

use crate::graphs::{Shape, NODES, SHAPES};
use crate::proved;
use crate::table::Table;
use crate::timing::fastest;
use second::graph::{bits, Rows};
use second::library::SAID;
use second::prng::Prng;
use second::reduction;
use std::hint::black_box;

const GRAPHS_A_SHAPE: u64 = 100;

pub fn measure() {
    let title = "whole graphs: rows to deadlocked nodes";
    let table = Table::new(title, ["proved", "second"], "graph");
    let mut thousand = Vec::new();
    for (number, shape) in SHAPES.iter().enumerate() {
        let graphs = draw(number as u64, shape);
        table.row(shape.0, deadlocked_nodes(&graphs));
        thousand.extend(graphs);
    }
    let whole = deadlocked_nodes(&thousand);
    let judging = judged(&thousand);
    table.row("the thousand", whole);
    table.row("  of this, judging the rows", judging);
    table.row(
        "  of this, the reduction",
        [0, 1].map(|side| whole[side] - judging[side]),
    );
}

fn draw(number: u64, shape: &Shape) -> Vec<Rows> {
    let one = |index| {
        let rows = shape.1(&mut Prng::for_script(number, index));
        assert_same(&rows, shape.0);
        rows
    };
    (0..GRAPHS_A_SHAPE).map(one).collect()
}

/// A comparison of different answers would be void.
fn assert_same(rows: &Rows, shape: &str) {
    let Ok(graph) = rows.graph() else {
        panic!("{shape}: a graph that isn't accepted");
    };
    let stuck = bits(&reduction::deadlocked(&graph));
    assert_eq!(graph.len(), NODES, "{shape}: nodes");
    assert_eq!(proved::check(rows), 0, "{shape}: coldroom_check");
    let found = proved::all_deadlocked(rows);
    assert_eq!(found, (SAID, stuck), "{shape}: deadlocked nodes");
}

fn deadlocked_nodes(graphs: &[Rows]) -> [f64; 2] {
    let proved = |rows: &Rows| {
        black_box(proved::all_deadlocked(rows));
    };
    let second = |rows: &Rows| {
        let _ = black_box(rows.graph().map(|graph| reduction::deadlocked(&graph)));
    };
    each(graphs, proved, second)
}

fn judged(graphs: &[Rows]) -> [f64; 2] {
    let proved = |rows: &Rows| {
        black_box(proved::check(rows));
    };
    let second = |rows: &Rows| {
        let _ = black_box(rows.graph());
    };
    each(graphs, proved, second)
}

/// Nanoseconds a graph, proved and second.
fn each(graphs: &[Rows], proved: fn(&Rows), second: fn(&Rows)) -> [f64; 2] {
    let all = |work: fn(&Rows)| move || graphs.iter().for_each(|rows| work(black_box(rows)));
    fastest([&mut all(proved), &mut all(second)]).map(|pass| pass / graphs.len() as f64)
}
