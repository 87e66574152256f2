//! A bench whose state is lent as numbers: what number 13 says of it, a step of it, and a list of steps.

use crate::bench::{Answer, Bench, Step, LAST_ROUND};
use crate::codes::{
    answer_code, letter, letter_number, letter_of, record_numbers, step_of, Known, Strange,
    NUMBERS_A_RECORD,
};
use crate::graph::{Refusal, Rows};
use crate::message::Message;

pub struct LentBench {
    pub rows: Rows,
    pub records: Vec<u64>,
    pub messages: Vec<u64>,
    pub sent: u64,
    pub highest: u64,
}

impl LentBench {
    /// The bench as numbers, in a list of messages that goes on after those sent.
    pub fn of(rows: Rows, bench: &Bench, after: &[u64]) -> LentBench {
        let sent = bench.sent.iter().map(message_number);
        LentBench {
            rows,
            records: bench.records.iter().flat_map(record_numbers).collect(),
            messages: sent.chain(after.iter().copied()).collect(),
            sent: bench.sent.len() as u64,
            highest: bench.highest,
        }
    }

    /// The bench that the numbers stand for, or why they stand for none.
    pub fn bench(&self) -> Result<Bench, Strange> {
        let graph = self.rows.graph().map_err(|_| "the graph")?;
        let known = Known {
            nodes: graph.len(),
            last_round: self.highest,
        };
        if self.records.len() != NUMBERS_A_RECORD * graph.len() {
            return Err("the length of the records");
        }
        let mut bench = Bench::fresh(graph, self.messages.len() as u64);
        if self.sent > bench.room() as u64 {
            return Err("the sent count");
        }
        if self.highest > LAST_ROUND {
            return Err("the highest round");
        }
        bench.highest = self.highest;
        let records = self.records.chunks(NUMBERS_A_RECORD);
        bench.records = records
            .map(|numbers| known.record(numbers))
            .collect::<Result<_, _>>()?;
        let sent = self.messages[..self.sent as usize].iter();
        bench.sent = sent
            .map(|number| known.message(letter_of(*number)))
            .collect::<Result<_, _>>()?;
        Ok(bench)
    }

    pub fn step(&mut self, step: Step) -> Result<Answer, Refusal> {
        let mut bench = self.bench().map_err(|_| Refusal::plain(13))?;
        let answer = bench.step(step);
        if let Answer::Refused(number) = answer {
            return Err(Refusal::plain(number));
        }
        self.take_back(&bench);
        Ok(answer)
    }

    /// The list is refused as a whole, or each step has its own answer.
    pub fn run(&mut self, steps: &[u64], answers: &mut [u64]) -> Result<(), Refusal> {
        let mut bench = self.bench().map_err(|_| Refusal::plain(13))?;
        if answers.len() < steps.len() {
            return Err(Refusal::plain(15));
        }
        for (place, step) in answers.iter_mut().zip(steps) {
            let code = answer_code(bench.step(step_of(*step)));
            *place = (bench.sent.len() as u64) << 16 | code;
        }
        self.take_back(&bench);
        Ok(())
    }

    fn take_back(&mut self, bench: &Bench) {
        self.records = bench.records.iter().flat_map(record_numbers).collect();
        for (place, message) in self.messages.iter_mut().zip(&bench.sent) {
            *place = message_number(message);
        }
        self.sent = bench.sent.len() as u64;
        self.highest = bench.highest;
    }
}

fn message_number(message: &Message) -> u64 {
    letter_number(letter(message))
}
