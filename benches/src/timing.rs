//! How long things take, measured side by side.

use std::time::Duration;

/// Each side runs so often, in turn with the others, so that a slow moment of the machine hits them all.
const REPETITIONS: usize = 9;
/// Long enough that the clock's own steps are lost in it.
const REPETITION: Duration = Duration::from_millis(20);

/// The nanoseconds that one call of each side takes: the fastest repetition, since other work can only add to it.
pub fn fastest<const SIDES: usize>(mut sides: [&mut dyn FnMut(); SIDES]) -> [f64; SIDES] {
    let calls: [u32; SIDES] = std::array::from_fn(|side| calls_needed(sides[side]));
    let mut best = [f64::INFINITY; SIDES];
    for _ in 0..REPETITIONS {
        for (side, work) in sides.iter_mut().enumerate() {
            let taken = repeated(calls[side], work);
            best[side] = best[side].min(taken.as_nanos() as f64 / f64::from(calls[side]));
        }
    }
    best
}

/// Doubled until they fill a repetition; this is the warm-up too.
fn calls_needed(work: &mut dyn FnMut()) -> u32 {
    let mut calls = 1;
    while repeated(calls, work) < REPETITION {
        calls *= 2;
    }
    calls
}

fn repeated(calls: u32, work: &mut dyn FnMut()) -> Duration {
    let start = processor_time();
    for _ in 0..calls {
        work();
    }
    processor_time() - start
}

/// The time that the processes which this one has started, and which have ended, have had a processor.
pub fn children_time() -> Duration {
    /// The user's part and the system's, each in seconds and microseconds, and fourteen counts.
    type Usage = [i64; 18];
    extern "C" {
        fn getrusage(whose: i32, usage: *mut Usage) -> i32;
    }
    const OF_CHILDREN: i32 = -1;
    let mut usage: Usage = [0; 18];
    // Linux writes these numbers, as its C library declares them for 64-bit processors.
    let status = unsafe { getrusage(OF_CHILDREN, &mut usage) };
    assert_eq!(status, 0, "the processor time of processes can't be read");
    Duration::from_secs((usage[0] + usage[2]) as u64)
        + Duration::from_micros((usage[1] + usage[3]) as u64)
}

/// The time that this thread has had a processor, which other programs' turns don't add to.
fn processor_time() -> Duration {
    #[repr(C)]
    struct Time {
        seconds: i64,
        nanoseconds: i64,
    }
    extern "C" {
        fn clock_gettime(clock: i32, time: *mut Time) -> i32;
    }
    const OF_THIS_THREAD: i32 = 3;
    let mut time = Time {
        seconds: 0,
        nanoseconds: 0,
    };
    // Linux writes the two numbers, as its C library declares them for 64-bit processors.
    let status = unsafe { clock_gettime(OF_THIS_THREAD, &mut time) };
    assert_eq!(status, 0, "this thread's processor time can't be read");
    Duration::new(time.seconds as u64, time.nanoseconds as u32)
}
