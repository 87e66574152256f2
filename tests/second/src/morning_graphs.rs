//! The graphs of the paper's mornings, written down as the paper writes them, and bad ones made from them.

use crate::graph::{Row, Rows, ACTIVE};

/// Papers count nodes from 1; the bit is one less.
fn bits(members: &[u64]) -> u64 {
    members.iter().map(|member| 1 << (member - 1)).sum()
}

/// At least one of the sets, all of it.
fn any(sets: &[&[u64]]) -> Row {
    let mut row = [2, 0, 0, 0, 0, 0];
    for (place, members) in row[2..].iter_mut().zip(sets) {
        *place = bits(members);
    }
    row
}

fn all(members: &[u64]) -> Row {
    any(&[members])
}

fn needs(count: u64, of: &[u64]) -> Row {
    [1, count, bits(of), 0, 0, 0]
}

pub fn morning_1() -> Rows {
    Rows::of(&[
        any(&[&[4], &[2]]),
        all(&[3, 4, 5]),
        any(&[&[2], &[6, 7]]),
        all(&[7]),
        any(&[&[1], &[7]]),
        ACTIVE,
        all(&[6]),
    ])
}

pub fn morning_2() -> Rows {
    Rows::of(&[
        any(&[&[2, 3], &[4]]),
        ACTIVE,
        any(&[&[5, 6], &[7]]),
        all(&[8, 9]),
        all(&[1]),
        ACTIVE,
        all(&[4]),
        all(&[7]),
        any(&[&[8, 10], &[1]]),
        ACTIVE,
    ])
}

pub fn morning_4() -> Rows {
    Rows::of(&[all(&[2]), all(&[1])])
}

pub fn morning_6() -> Rows {
    Rows::of(&[needs(1, &[2]), ACTIVE])
}

pub fn morning_9(needed: u64) -> Rows {
    Rows::of(&[needs(needed, &[2, 3, 4]), ACTIVE, all(&[1]), all(&[1])])
}

pub fn morning_10() -> Rows {
    Rows::of(&[
        all(&[2, 4]),
        all(&[3]),
        all(&[2]),
        any(&[&[1], &[5]]),
        ACTIVE,
    ])
}

/// Not of the paper: node 2 is called by 1 or by 3, whichever's NOTIFY comes first.
pub fn two_callers() -> Rows {
    Rows::of(&[all(&[2, 3]), ACTIVE, all(&[1, 2])])
}

pub fn active_nodes(count: usize) -> Rows {
    Rows::of(&vec![ACTIVE; count])
}

/// Nine nodes that all wait on each other and 55 behind them that wait on the first eight: 72 and 440 edges.
pub fn edges_512() -> Rows {
    let eight_others = |node: u64| -> Vec<u64> {
        let core = (1..=9).filter(|other| *other != node);
        core.take(8).collect()
    };
    let rows: Vec<Row> = (1..=64).map(|node| needs(8, &eight_others(node))).collect();
    Rows::of(&rows)
}

/// The same with a ninth wait at the last node.
pub fn edges_513() -> Rows {
    let last = needs(9, &[1, 2, 3, 4, 5, 6, 7, 8, 9]);
    with_row(&edges_512(), 63, last)
}

/// The graph with one row put in another's place; rows are counted from 0 here, as refusals count them.
pub fn with_row(rows: &Rows, row: usize, numbers: Row) -> Rows {
    let mut changed = rows.clone();
    changed.row_mut(row).copy_from_slice(&numbers);
    changed
}
