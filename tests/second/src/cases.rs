//! The drawn cases of a trial, gone through by two threads until one shows a mismatch.

use std::collections::BTreeMap;
use std::io;
use std::ops::Range;
use std::sync::atomic::{AtomicU64, Ordering};
use std::sync::{Mutex, MutexGuard, PoisonError};
use std::thread;

/// The program runs in processes of its own, so two threads keep two processors at work.
const THREADS: usize = 2;

/// The cases 0 to `count` - 1, and what they are called when it is said how many agree.
pub struct Cases<'a> {
    pub trial: &'a str,
    pub what: &'a str,
    pub count: u64,
    pub progress_every: u64,
}

impl Cases<'_> {
    /// False after the first mismatch, which is said.
    pub fn agree<Check>(&self, mismatch: Check) -> io::Result<bool>
    where
        Check: Fn(u64) -> io::Result<Option<String>> + Sync,
    {
        for start in (0..self.count).step_by(self.progress_every as usize) {
            let end = self.count.min(start + self.progress_every);
            if let Some(mismatch) = first_mismatch(start..end, &mismatch)? {
                println!("{mismatch}");
                return Ok(false);
            }
            println!("{}: {end} {} agree", self.trial, self.what);
        }
        Ok(true)
    }
}

/// The first by index, however the threads share the work: indices are given out in order, so by the time one
/// has shown a mismatch all below it are given out too, and every thread finishes what it was given.
fn first_mismatch<Check>(indices: Range<u64>, mismatch: &Check) -> io::Result<Option<String>>
where
    Check: Fn(u64) -> io::Result<Option<String>> + Sync,
{
    let next = AtomicU64::new(indices.start);
    let found = Mutex::new(BTreeMap::new());
    let work = || {
        while lock(&found).is_empty() {
            let index = next.fetch_add(1, Ordering::Relaxed);
            if index >= indices.end {
                return;
            }
            if let Some(mismatch) = mismatch(index).transpose() {
                lock(&found).insert(index, mismatch);
            }
        }
    };
    thread::scope(|scope| {
        for _ in 0..THREADS {
            scope.spawn(work);
        }
    });
    let first = lock(&found).pop_first();
    first.map(|(_, mismatch)| mismatch).transpose()
}

/// A thread that panics ends the whole trial when it is joined, so what it left behind is never used.
pub fn lock<Item>(shared: &Mutex<Item>) -> MutexGuard<'_, Item> {
    shared.lock().unwrap_or_else(PoisonError::into_inner)
}
