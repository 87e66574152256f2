//! How one random script is drawn: its graph, its room and its run.

use crate::bench::{Bench, DELIVER, MOST_ROOM, OPEN};
use crate::drawn_rows;
use crate::drawn_steps;
use crate::graph::Rows;
use crate::prng::Prng;
use crate::script::{Script, MOST_IN_A_LIST};
use crate::shapes::Shape;

#[derive(Clone, Copy)]
pub enum Room {
    /// Enough, or about as much as a bench uses, or more than it uses.
    Good,
    /// Just enough, or a little less than that.
    Exact,
    Tiny,
}

/// The numbers are the most: each script draws its own. Those said to be a chance are percentages, at each step.
#[derive(Clone, Copy)]
pub struct Plan {
    pub shapes: &'static [Shape],
    pub room: Room,
    pub rounds: usize,
    pub steps: usize,
    /// The chance that a waiting message is thrown away.
    pub loss: usize,
    /// The chance that a message already delivered is delivered again.
    pub repeat: usize,
    /// The chance that a waiting message is put aside until all rounds are opened.
    pub late: usize,
    /// The chance that the next round opens while messages are still waiting.
    pub overlap: usize,
    /// The chance of a step that has mostly to be refused.
    pub noise: usize,
    /// How far the next round's number may lie above the highest, or above `rounds_above` if that is more.
    pub stride: usize,
    pub rounds_above: u64,
}

impl Plan {
    pub fn script(self, rng: &mut Prng) -> Script {
        let rows = drawn_rows::accepted(rng, self.shapes);
        self.script_on(rng, rows)
    }

    /// A graph that isn't accepted gets a few steps that nobody looks at, or none.
    pub fn script_on(self, rng: &mut Prng, rows: Rows) -> Script {
        let Ok(graph) = rows.graph() else {
            let steps = [[OPEN, 0, 1], [DELIVER, 0, 0]][..rng.below(3)].to_vec();
            let room = rng.below(20) as u64;
            return Script { rows, room, steps };
        };
        let plan = self.drawn(rng);
        // Four messages an edge for each round are always enough.
        let enough = (4 * graph.edges() * plan.rounds) as u64;
        let room = room(rng, self.room, enough.min(MOST_IN_A_LIST));
        let steps = drawn_steps::draw(rng, Bench::fresh(graph, room), plan);
        Script { rows, room, steps }
    }

    fn drawn(self, rng: &mut Prng) -> Plan {
        Plan {
            rounds: rng.between(1, self.rounds),
            loss: rng.between(0, self.loss),
            repeat: rng.between(0, self.repeat),
            late: rng.between(0, self.late),
            overlap: rng.between(0, self.overlap),
            noise: rng.between(0, self.noise),
            ..self
        }
    }
}

fn room(rng: &mut Prng, room: Room, enough: u64) -> u64 {
    match room {
        Room::Good => {
            let near = MOST_ROOM - 1 + rng.below(3) as u64;
            let more = rng.between(MOST_ROOM as usize, MOST_IN_A_LIST as usize) as u64;
            *rng.pick(&[enough, near, near, more, MOST_IN_A_LIST])
        }
        Room::Exact => enough.saturating_sub(*rng.pick(&[0, 0, 1, 2, 7])),
        Room::Tiny => rng.below(9) as u64,
    }
}
