//! The plain reduction of a whole graph, and what follows from it: evidence, ring, lists.

use crate::graph::{Graph, NodeSet};

pub fn everyone(graph: &Graph) -> NodeSet {
    (0..graph.len()).collect()
}

/// Goes over the nodes until a pass frees nobody; of the active nodes only those in `may_start` are freed.
pub fn freed_from(graph: &Graph, may_start: &NodeSet) -> NodeSet {
    let mut freed = NodeSet::new();
    loop {
        let before = freed.len();
        for node in &graph.nodes {
            let allowed = !node.is_active() || may_start.contains(&node.me);
            if allowed && !freed.contains(&node.me) && node.condition.holds(&freed) {
                freed.insert(node.me);
            }
        }
        if freed.len() == before {
            return freed;
        }
    }
}

/// The nodes that no reduction frees. Freeing never spoils a condition, so one greedy run is enough.
pub fn deadlocked(graph: &Graph) -> NodeSet {
    let everyone = everyone(graph);
    &everyone - &freed_from(graph, &everyone)
}

/// Every node that a path of no or more edges leads to.
pub fn reachable(graph: &Graph, from: usize) -> NodeSet {
    reachable_within(graph, from, &everyone(graph))
}

/// Every node that a path of no or more edges leads to which goes on to nodes of `within` only.
fn reachable_within(graph: &Graph, from: usize, within: &NodeSet) -> NodeSet {
    let mut seen = NodeSet::from([from]);
    let mut to_visit = vec![from];
    while let Some(node) = to_visit.pop() {
        for next in graph.nodes[node].out.intersection(within) {
            if seen.insert(*next) {
                to_visit.push(*next);
            }
        }
    }
    seen
}

pub fn evidence(graph: &Graph, node: usize) -> NodeSet {
    let stuck = deadlocked(graph);
    if !stuck.contains(&node) {
        return NodeSet::new();
    }
    &reachable(graph, node) & &stuck
}

pub enum Ring {
    NotDeadlocked,
    In,
    Behind,
}

/// Whether a path of one or more edges leads from the node back to itself which goes on to nodes of `within` only.
pub fn leads_back(graph: &Graph, node: usize, within: &NodeSet) -> bool {
    // At least one edge must be walked, so the search begins at the nodes waited on.
    let mut waited_on = graph.nodes[node].out.intersection(within);
    waited_on.any(|next| reachable_within(graph, *next, within).contains(&node))
}

pub fn ring(graph: &Graph, node: usize) -> Ring {
    let stuck = deadlocked(graph);
    if !stuck.contains(&node) {
        Ring::NotDeadlocked
    } else if leads_back(graph, node, &stuck) {
        Ring::In
    } else {
        Ring::Behind
    }
}

/// The members whose condition the nodes outside satisfy.
pub fn satisfied(graph: &Graph, members: &NodeSet) -> NodeSet {
    let outside = &everyone(graph) - members;
    let holds = |member: &usize| graph.nodes[*member].condition.holds(&outside);
    members.iter().copied().filter(holds).collect()
}

pub enum Judged {
    Passes,
    ClaimMissing,
    /// The first member whose condition the nodes outside satisfy: the lowest, as lists ascend.
    Satisfied(usize),
}

/// Whether a list of these members is evidence for the node: it names the node, and the nodes outside it satisfy no
/// member. Without the node it is none whatever its members wait for, so that is said first.
pub fn judge_list(graph: &Graph, node: usize, members: &NodeSet) -> Judged {
    if !members.contains(&node) {
        return Judged::ClaimMissing;
    }
    match satisfied(graph, members).first() {
        Some(member) => Judged::Satisfied(*member),
        None => Judged::Passes,
    }
}
