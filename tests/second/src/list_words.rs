//! Names for what is wrong with a list that is refused: what a careless look at it would pass over, or see too early.

use crate::graph::Graph;
use crate::questions::named;
use crate::reduction::{judge_list, Judged};

/// The places of the pairs of neighbours that are so.
fn pairs(list: &[u8], so: fn(u8, u8) -> bool) -> Vec<usize> {
    let pairs = list.windows(2).enumerate();
    let found = pairs.filter(|(_, pair)| so(pair[0], pair[1]));
    found.map(|(place, _)| place).collect()
}

fn found(endings: &[(bool, &'static str)]) -> Vec<&'static str> {
    let found = endings.iter().filter(|(found, _)| *found);
    found.map(|(_, ending)| *ending).collect()
}

/// Of a list in which some entry names no node, and whose order may be wrong too.
pub fn strangeness(graph: &Graph, list: &[u8]) -> Vec<&'static str> {
    let is_strange = |entry: &u8| usize::from(*entry) >= graph.len();
    let first = list.iter().position(is_strange);
    let wrong = pairs(list, |a, b| a >= b);
    let ascending = wrong.is_empty();
    let before = wrong.first().is_some_and(|pair| Some(*pair) < first);
    let to_the_count = named(list).last() == Some(&graph.len());
    found(&[
        (ascending, "ascending"),
        (ascending && to_the_count, "ascending to the node count"),
        (
            ascending && list.len() > 64,
            "ascending and of more than 64",
        ),
        (before, "wrong order before the strange entry"),
        (
            !ascending && !before,
            "wrong order from the strange entry on",
        ),
    ])
}

/// Of a list that doesn't ascend.
pub fn disorder(list: &[u8]) -> Vec<&'static str> {
    let wrong = pairs(list, |a, b| a >= b);
    let equal = pairs(list, |a, b| a == b);
    let repeated = named(list).len() < list.len();
    let last = list.len() - 2;
    // Where there is one pair only, it is no matter which pair is looked at.
    let one_of_several = wrong.len() == 1 && last > 0;
    let (at_first, at_last) = (wrong[0] == 0, wrong[0] == last);
    found(&[
        (wrong == equal, "equal neighbours only"),
        (wrong.len() == 1 && !repeated, "a descending pair only"),
        (equal.is_empty() && repeated, "a repeat apart"),
        (one_of_several && at_first, "only the first pair"),
        (one_of_several && at_last, "only the last pair"),
        (
            one_of_several && !at_first && !at_last,
            "only a pair between",
        ),
        (
            last > 0 && equal.is_empty() && wrong.len() == last + 1,
            "descending throughout",
        ),
        (wrong[0] >= 63, "only past 64 places"),
        (list.len() > 64, "of more than 64"),
        (list.len() >= 200, "of 200 and more"),
    ])
}

/// What would be said of the members of a list that is refused for its order alone.
pub fn if_in_order(graph: &Graph, node: usize, list: &[u8]) -> &'static str {
    match judge_list(graph, node, &named(list)) {
        Judged::Passes => "would pass in order",
        Judged::ClaimMissing => "would lack the claim in order",
        Judged::Satisfied(_) => "would fail at a member in order",
    }
}
