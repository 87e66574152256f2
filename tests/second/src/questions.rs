//! The calls on a whole graph as a clerk makes them: numbers in, an answer or a refusal out.

use crate::graph::{Graph, NodeSet, Refusal, Rows};
use crate::reduction::{self, Judged, Ring};

/// Graph first, then 9: the beginning of every question.
fn graph_and_node(rows: &Rows, node: u64) -> Result<(Graph, usize), Refusal> {
    let graph = rows.graph()?;
    if node >= graph.len() as u64 {
        return Err(Refusal::plain(9));
    }
    Ok((graph, node as usize))
}

pub fn is_deadlocked(rows: &Rows, node: u64) -> Result<bool, Refusal> {
    let (graph, node) = graph_and_node(rows, node)?;
    Ok(reduction::deadlocked(&graph).contains(&node))
}

pub fn ring(rows: &Rows, node: u64) -> Result<Ring, Refusal> {
    let (graph, node) = graph_and_node(rows, node)?;
    Ok(reduction::ring(&graph, node))
}

/// Everybody who waits on a node.
pub fn waiting_on(rows: &Rows, node: u64) -> Result<NodeSet, Refusal> {
    let (graph, node) = graph_and_node(rows, node)?;
    let waits_on_it = |other: &usize| graph.nodes[*other].out.contains(&node);
    Ok((0..graph.len()).filter(waits_on_it).collect())
}

/// What the bytes of a list name, whether such nodes exist or not.
pub fn named(list: &[u8]) -> NodeSet {
    list.iter().map(|entry| usize::from(*entry)).collect()
}

/// Whether every entry is larger than the one before it.
pub fn ascends(list: &[u8]) -> bool {
    list.windows(2).all(|pair| pair[0] < pair[1])
}

/// The whole list is looked through for entries that name no node, then for its order, and only then are its members
/// judged: it is no matter which fault stands first in it.
pub fn judge_list(rows: &Rows, node: u64, list: &[u8]) -> Result<Judged, Refusal> {
    let (graph, node) = graph_and_node(rows, node)?;
    let members = named(list);
    if members.iter().any(|member| *member >= graph.len()) {
        return Err(Refusal::plain(14));
    }
    if !ascends(list) {
        return Err(Refusal::plain(18));
    }
    Ok(reduction::judge_list(&graph, node, &members))
}

/// Writes the evidence at the front of the room; every other byte stays as it was.
pub fn write_evidence(rows: &Rows, node: u64, room: &mut [u8]) -> Result<usize, Refusal> {
    let (graph, node) = graph_and_node(rows, node)?;
    if room.len() < graph.len() {
        return Err(Refusal::plain(15));
    }
    let evidence = reduction::evidence(&graph, node);
    for (place, member) in room.iter_mut().zip(&evidence) {
        *place = *member as u8;
    }
    Ok(evidence.len())
}
