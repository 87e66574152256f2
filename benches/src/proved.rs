//! The proved calls, as libcoldroom.a exports them.

use second::alone::Alone;
use second::bench::Step;
use second::codes::Letter;
use second::graph::Rows;
use second::lent::LentBench;

mod c {
    use second::codes::RecordNumbers;
    use second::message::KINDS;

    extern "C" {
        pub fn coldroom_check(nodes: u64, rows: *const u64, len: usize) -> u64;
        pub fn coldroom_all_deadlocked(
            nodes: u64,
            rows: *const u64,
            len: usize,
            set: *mut u64,
        ) -> u64;
        pub fn coldroom_deliver(
            nodes: u64,
            me: u64,
            row: *const u64,
            len: usize,
            ins: u64,
            record: *mut RecordNumbers,
            kind: u64,
            from: u64,
            to: u64,
            round: u64,
            sends: *mut [u64; KINDS.len()],
        ) -> u64;
        pub fn coldroom_step(
            nodes: u64,
            rows: *const u64,
            rows_len: usize,
            records: *mut u64,
            records_len: usize,
            messages: *mut u64,
            messages_len: usize,
            sent: *mut u64,
            highest: *mut u64,
            kind: u64,
            a: u64,
            b: u64,
        ) -> u64;
        pub fn coldroom_run(
            nodes: u64,
            rows: *const u64,
            rows_len: usize,
            records: *mut u64,
            records_len: usize,
            messages: *mut u64,
            messages_len: usize,
            sent: *mut u64,
            highest: *mut u64,
            steps: *const u64,
            steps_len: usize,
            answers: *mut u64,
            answers_len: usize,
        ) -> u64;
    }
}

pub fn check(rows: &Rows) -> u64 {
    // Every pointer in this file comes with the length of the slice that it is of, or points to as many numbers as it says.
    unsafe { c::coldroom_check(rows.nodes, rows.numbers.as_ptr(), rows.numbers.len()) }
}

/// The result, and the set.
pub fn all_deadlocked(rows: &Rows) -> (u64, u64) {
    let mut set = 0;
    let (numbers, len) = (rows.numbers.as_ptr(), rows.numbers.len());
    let result = unsafe { c::coldroom_all_deadlocked(rows.nodes, numbers, len, &mut set) };
    (result, set)
}

pub fn deliver(alone: &mut Alone, [kind, from, to, round]: Letter) -> u64 {
    unsafe {
        c::coldroom_deliver(
            alone.nodes,
            alone.me,
            alone.row.as_ptr(),
            alone.row.len(),
            alone.into,
            &mut alone.record,
            kind,
            from,
            to,
            round,
            &mut alone.sends,
        )
    }
}

pub fn step(bench: &mut LentBench, [kind, a, b]: Step) -> u64 {
    unsafe {
        c::coldroom_step(
            bench.rows.nodes,
            bench.rows.numbers.as_ptr(),
            bench.rows.numbers.len(),
            bench.records.as_mut_ptr(),
            bench.records.len(),
            bench.messages.as_mut_ptr(),
            bench.messages.len(),
            &mut bench.sent,
            &mut bench.highest,
            kind,
            a,
            b,
        )
    }
}

pub fn run(bench: &mut LentBench, steps: &[u64], answers: &mut [u64]) -> u64 {
    unsafe {
        c::coldroom_run(
            bench.rows.nodes,
            bench.rows.numbers.as_ptr(),
            bench.rows.numbers.len(),
            bench.records.as_mut_ptr(),
            bench.records.len(),
            bench.messages.as_mut_ptr(),
            bench.messages.len(),
            &mut bench.sent,
            &mut bench.highest,
            steps.as_ptr(),
            steps.len(),
            answers.as_mut_ptr(),
            answers.len(),
        )
    }
}
