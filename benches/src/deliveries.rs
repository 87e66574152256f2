//! One delivery to one controller, situation by situation.

use crate::graphs::NODES;
use crate::proved;
use crate::situations::{all, ins, Situation, ME};
use crate::table::Table;
use crate::timing::fastest;
use second::alone::Alone;
use second::bench::{Answer, LAST_ROUND};
use second::codes::{answer_code, letter, record_numbers, Known, Letter, RecordNumbers};
use second::graph::{members, Node, Row};
use second::library::SAID;
use second::message::{Message, KINDS};
use second::node::{deliver, Delivery, Record};
use std::hint::black_box;
use std::slice::from_ref;

pub fn measure() {
    let title = "one delivery to one controller";
    let table = Table::new(title, ["proved", "second"], "call");
    let all = all();
    for situation in &all {
        assert_same(situation);
        table.row(&situation.name, time(from_ref(situation), Case::second));
    }
    table.row("all of these in turn", time(&all, Case::second));
    table.row(
        "  the same, second on its own types",
        time(&all, Case::second_on_its_own_types),
    );
    table.note("Both judge all numbers and leave numbers; on its own types second does neither.");
}

/// A situation as numbers, which each side is handed, and in the second program's own types.
struct Case {
    alone: Alone,
    /// The record that each call finds.
    start: RecordNumbers,
    letter: Letter,
    node: Node,
    record: Record,
    message: Message,
}

impl Case {
    fn new(situation: &Situation) -> Case {
        let mut alone = alone(situation.row);
        for message in &situation.before {
            let answer = alone.deliver(letter(message));
            assert!(matches!(answer, Ok(Answer::Taken(_))), "not taken before");
        }
        let Ok(node) = Node::read(ME, &situation.row, NODES) else {
            panic!("a row that isn't accepted");
        };
        let known = Known {
            nodes: NODES,
            last_round: LAST_ROUND,
        };
        let into = members(alone.into);
        Case {
            start: alone.record,
            letter: letter(&situation.message),
            node: Node { into, ..node },
            record: known.record(&alone.record).expect("a record that exists"),
            message: situation.message,
            alone,
        }
    }

    fn proved(&mut self) -> u64 {
        self.alone.record = self.start;
        proved::deliver(&mut self.alone, self.letter)
    }

    fn second(&mut self) -> u64 {
        self.alone.record = self.start;
        let Ok(answer) = self.alone.deliver(self.letter) else {
            panic!("a delivery that is refused");
        };
        SAID + answer_code(answer)
    }

    fn second_on_its_own_types(&mut self) -> Delivery {
        deliver(&self.node, &self.record, self.message)
    }
}

fn alone(row: Row) -> Alone {
    Alone {
        nodes: NODES as u64,
        me: ME as u64,
        row: row.to_vec(),
        into: ins(),
        record: RecordNumbers::default(),
        sends: [0; KINDS.len()],
    }
}

/// A result, and the record and the receivers of each kind of message after it.
type Left = (u64, RecordNumbers, [u64; KINDS.len()]);

/// A comparison of different answers would be void.
fn assert_same(situation: &Situation) {
    let left = |call: fn(&mut Case) -> u64| -> Left {
        let mut case = Case::new(situation);
        case.alone.sends = [0; KINDS.len()];
        (call(&mut case), case.alone.record, case.alone.sends)
    };
    let [proved, second] = [left(Case::proved), left(Case::second)];
    let own = left_by_own_types(&mut Case::new(situation));
    assert_eq!(proved, second, "{}", situation.name);
    assert_eq!(proved, own, "{}: own types", situation.name);
}

fn left_by_own_types(case: &mut Case) -> Left {
    let mut left = (0, case.start, [0; KINDS.len()]);
    let answer = match case.second_on_its_own_types() {
        Delivery::Old => Answer::Old,
        Delivery::Stray => Answer::Stray,
        Delivery::Repeat => Answer::Repeat,
        Delivery::Taken(change) => {
            left.1 = record_numbers(&change.record);
            for message in change.sends {
                left.2[message.kind as usize] |= 1 << message.to;
            }
            Answer::Taken(change.verdict)
        }
    };
    left.0 = SAID + answer_code(answer);
    left
}

/// Nanoseconds a call, proved and second.
fn time<Said>(situations: &[Situation], second: impl Fn(&mut Case) -> Said) -> [f64; 2] {
    let mut proved = pass(situations, Case::proved);
    let mut second = pass(situations, second);
    fastest([&mut proved, &mut second]).map(|pass| pass / situations.len() as f64)
}

/// One side's work, on cases of its own.
fn pass<Said>(situations: &[Situation], call: impl Fn(&mut Case) -> Said) -> impl FnMut() {
    let mut cases: Vec<Case> = situations.iter().map(Case::new).collect();
    move || {
        for case in black_box(&mut cases) {
            black_box(call(case));
        }
    }
}
