//! The graph of waits: rows read from numbers, the refusals 1 to 8, who waits on whom.

use std::collections::BTreeSet;
use std::fmt;

const MOST_NODES: u64 = 64;
pub const MOST_EDGES: usize = 512;
pub const NUMBERS_A_ROW: usize = 6;

pub type NodeSet = BTreeSet<usize>;
pub type Row = [u64; NUMBERS_A_ROW];

pub const ACTIVE: Row = [0; NUMBERS_A_ROW];

/// The members of a set that is handed in as a number: bit k is node k, whether that node exists or not.
pub fn members(bits: u64) -> NodeSet {
    (0..64).filter(|place| bits >> place & 1 == 1).collect()
}

pub fn bits(set: &NodeSet) -> u64 {
    set.iter().map(|member| 1u64 << member).sum()
}

pub fn count_is_bad(nodes: u64) -> bool {
    nodes == 0 || nodes > MOST_NODES
}

/// A number of the paper's table, with the row it was found in (row 0 where no row is meant).
pub struct Refusal {
    pub number: u64,
    pub row: usize,
}

impl Refusal {
    pub fn plain(number: u64) -> Refusal {
        Refusal { number, row: 0 }
    }
}

impl fmt::Display for Refusal {
    fn fmt(&self, f: &mut fmt::Formatter) -> fmt::Result {
        write!(f, "refused {} row {}", self.number, self.row)
    }
}

/// What a node waits for.
#[derive(PartialEq, Eq)]
pub enum Condition {
    Active,
    Count { needed: u64, voters: NodeSet },
    Sets(Vec<NodeSet>),
}

impl Condition {
    pub fn holds(&self, granting: &NodeSet) -> bool {
        match self {
            Condition::Active => true,
            Condition::Count { needed, voters } => {
                voters.intersection(granting).count() as u64 >= *needed
            }
            Condition::Sets(sets) => sets.iter().any(|set| set.is_subset(granting)),
        }
    }
}

/// All that a node may look at besides its record and the message: its own row, and who waits on it.
pub struct Node {
    pub me: usize,
    pub condition: Condition,
    pub out: NodeSet,
    pub into: NodeSet,
}

impl Node {
    /// Judges the node's own row, 2 to 7. Who waits on it is no matter of that row, and left empty.
    pub fn read(me: usize, row: &[u64], nodes: usize) -> Result<Node, Refusal> {
        let read = ReadRow::of(row);
        if let Some(number) = read.refusal(me, nodes) {
            return Err(Refusal { number, row: me });
        }
        Ok(Node {
            me,
            out: read.sets.iter().flatten().copied().collect(),
            into: NodeSet::new(),
            condition: read.condition(),
        })
    }

    pub fn is_active(&self) -> bool {
        self.condition == Condition::Active
    }
}

/// An accepted graph.
pub struct Graph {
    pub nodes: Vec<Node>,
}

impl Graph {
    pub fn len(&self) -> usize {
        self.nodes.len()
    }

    /// Edges are members of OUT: a node named in two sets of one row is waited on once.
    pub fn edges(&self) -> usize {
        self.nodes.iter().map(|node| node.out.len()).sum()
    }
}

/// Node count and row numbers as handed in, good or bad.
#[derive(Clone)]
pub struct Rows {
    pub nodes: u64,
    pub numbers: Vec<u64>,
}

impl Rows {
    pub fn of(rows: &[Row]) -> Rows {
        Rows {
            nodes: rows.len() as u64,
            numbers: rows.concat(),
        }
    }

    pub fn row_mut(&mut self, row: usize) -> &mut [u64] {
        &mut self.numbers[row * NUMBERS_A_ROW..][..NUMBERS_A_ROW]
    }

    /// Judges the numbers as the paper orders it: 1; then row by row 2 to 7; then 8.
    pub fn graph(&self) -> Result<Graph, Refusal> {
        if count_is_bad(self.nodes) || self.numbers.len() != NUMBERS_A_ROW * self.nodes as usize {
            return Err(Refusal::plain(1));
        }
        let mut nodes = Vec::new();
        for (me, row) in self.numbers.chunks(NUMBERS_A_ROW).enumerate() {
            nodes.push(Node::read(me, row, self.nodes as usize)?);
        }
        for waiter in 0..nodes.len() {
            for target in nodes[waiter].out.clone() {
                nodes[target].into.insert(waiter);
            }
        }
        let graph = Graph { nodes };
        if graph.edges() > MOST_EDGES {
            return Err(Refusal::plain(8));
        }
        Ok(graph)
    }
}

/// One row as handed in, its sets taken apart.
struct ReadRow {
    kind: u64,
    threshold: u64,
    sets: Vec<NodeSet>,
}

impl ReadRow {
    fn of(numbers: &[u64]) -> ReadRow {
        ReadRow {
            kind: numbers[0],
            threshold: numbers[1],
            sets: numbers[2..].iter().map(|bits| members(*bits)).collect(),
        }
    }

    /// The first of the numbers 2 to 7 that this row deserves.
    fn refusal(&self, me: usize, nodes: usize) -> Option<u64> {
        let mut members = self.sets.iter().flatten();
        let faults = [
            (2, self.kind > 2),
            (3, members.any(|member| *member >= nodes)),
            (4, self.sets.iter().any(|set| set.contains(&me))),
            (5, !self.threshold_fits()),
            (6, self.has_a_set_too_many()),
            (7, self.kind == 2 && !self.sets_fit()),
        ];
        let first = faults.into_iter().find(|(_, found)| *found);
        first.map(|(number, _)| number)
    }

    fn threshold_fits(&self) -> bool {
        match self.kind {
            1 => self.threshold >= 1 && self.threshold <= self.sets[0].len() as u64,
            _ => self.threshold == 0,
        }
    }

    fn has_a_set_too_many(&self) -> bool {
        let allowed = match self.kind {
            0 => 0,
            1 => 1,
            _ => self.sets.len(),
        };
        self.sets[allowed..].iter().any(|set| !set.is_empty())
    }

    fn nonempty(&self) -> Vec<&NodeSet> {
        self.sets.iter().filter(|set| !set.is_empty()).collect()
    }

    /// At least one nonempty set, and none inside another; equal sets are inside each other.
    fn sets_fit(&self) -> bool {
        let sets = self.nonempty();
        let inside = |a: usize, b: usize| a != b && sets[a].is_subset(sets[b]);
        !sets.is_empty() && !(0..sets.len()).any(|a| (0..sets.len()).any(|b| inside(a, b)))
    }

    fn condition(&self) -> Condition {
        match self.kind {
            0 => Condition::Active,
            1 => Condition::Count {
                needed: self.threshold,
                voters: self.sets[0].clone(),
            },
            _ => Condition::Sets(self.nonempty().into_iter().cloned().collect()),
        }
    }
}
