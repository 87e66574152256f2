//! Questions on a whole graph, drawn: graphs good and bad, nodes, rooms and lists.

use crate::drawn_knots;
use crate::drawn_rows;
use crate::graph::{Graph, NodeSet, Rows};
use crate::prng::Prng;
use crate::reduction::{deadlocked, everyone, evidence};
use crate::refused_graphs;
use crate::shapes::Shape;
use crate::sorts::SMALL;
use crate::unknown;

pub fn rows(rng: &mut Prng) -> Rows {
    match rng.below(100) {
        0..=24 => drawn_rows::accepted(rng, &[Shape::Few]),
        25..=56 => drawn_rows::accepted(rng, SMALL),
        57..=71 => drawn_knots::accepted(rng),
        72 => drawn_rows::accepted(rng, &[Shape::Dense, Shape::Limit]),
        73..=87 => refused(rng),
        _ => drawn_rows::any(rng),
    }
}

/// For a list of evidence. Often of 64 nodes, as only their lists can ascend for so many places and not be refused.
pub fn rows_for_a_list(rng: &mut Prng) -> Rows {
    match rng.chance(15) {
        true => drawn_knots::of(rng, 64),
        false => rows(rng),
    }
}

pub fn refused(rng: &mut Prng) -> Rows {
    let turn = rng.next();
    let mut rows = refused_graphs::refused(rng, turn);
    if rng.chance(3) {
        rows.numbers.clear();
    }
    rows
}

/// The node count of the rows, however bad they are, as a number to measure by.
fn measure(rows: &Rows) -> usize {
    rows.nodes.clamp(1, 64) as usize
}

pub fn node(rng: &mut Prng, rows: &Rows) -> u64 {
    match rng.chance(92) {
        true => rng.below(measure(rows)) as u64,
        false => unknown::past(rng, measure(rows) as u64),
    }
}

/// Room for the evidence: too small by one or by more, just enough, or larger.
pub fn room(rng: &mut Prng, rows: &Rows) -> Vec<u8> {
    let nodes = measure(rows);
    let length = match rng.below(10) {
        0 => nodes - 1,
        1 => rng.below(nodes),
        2..=4 => nodes,
        5 => nodes + 1,
        _ => nodes + rng.below(40),
    };
    (0..length).map(|_| rng.next() as u8).collect()
}

/// Most lists ascend, as the others are refused whatever their members are.
pub fn list(rng: &mut Prng, rows: &Rows, node: u64) -> Vec<u8> {
    let nodes = measure(rows);
    let mut members = match rows.graph() {
        Ok(graph) if node < rows.nodes => to_try(rng, &graph, node as usize),
        _ => any_of(rng, nodes),
    };
    if rng.chance(12) {
        members.append(&mut strange(rng, nodes));
    }
    let mut list: Vec<u8> = members.iter().map(|member| *member as u8).collect();
    if !list.is_empty() && rng.chance(36) {
        spoil_order(rng, &mut list);
    }
    list
}

/// Members that pass, members that nearly do, and often any nodes at all: only where several are satisfied does it matter
/// which of them is named.
fn to_try(rng: &mut Prng, graph: &Graph, node: usize) -> NodeSet {
    let any = rng.below(graph.len());
    let mut members = evidence(graph, node);
    match rng.below(14) {
        0 => members.clear(),
        1 => members = NodeSet::from([node]),
        2 => members = deadlocked(graph),
        3 => drop(members.insert(any)),
        4 => drop(members.remove(&any)),
        5..=7 => members = any_of(rng, graph.len()),
        8..=9 => members = everyone(graph),
        _ => {}
    }
    members
}

fn any_of(rng: &mut Prng, nodes: usize) -> NodeSet {
    (0..nodes).filter(|_| rng.chance(50)).collect()
}

/// Entries that name no node: the first such number, any of them, or so many in a row that the list gets long though it ascends.
fn strange(rng: &mut Prng, nodes: usize) -> NodeSet {
    let any = rng.between(nodes, 255);
    match rng.below(4) {
        0..=1 => NodeSet::from([nodes]),
        2 => NodeSet::from([any]),
        _ => (any..=255).take(65).collect(),
    }
}

/// Leaves the members as they are. Mostly one pair alone is wrong, which a careless look might pass over.
fn spoil_order(rng: &mut Prng, list: &mut Vec<u8>) {
    let last = list.len() - 1;
    match rng.below(12) {
        0..=2 => {
            let place = end_or_any(rng, list.len());
            list.insert(place, list[place]);
        }
        3..=5 if last > 0 => {
            let place = end_or_any(rng, last);
            list.swap(place, place + 1);
        }
        6..=7 => {
            let place = end_or_any(rng, list.len() + 1);
            list.insert(place, *rng.pick(list));
        }
        8 => list.reverse(),
        9 => rng.shuffle(list),
        _ => lengthen(rng, list),
    }
}

/// One of so many places, often the first or the last.
fn end_or_any(rng: &mut Prng, places: usize) -> usize {
    let any = rng.below(places);
    *rng.pick(&[0, any, places - 1])
}

/// Up to far more places than there can be nodes: all members named again and again, at the end, in heaps or all over.
fn lengthen(rng: &mut Prng, list: &mut Vec<u8>) {
    let most = *rng.pick(&[8, 70, 330]);
    for _ in 0..rng.between(1, most) {
        list.push(*rng.pick(list));
    }
    match rng.below(5) {
        0 => list.sort(),
        1 => rng.shuffle(list),
        _ => {}
    }
}
