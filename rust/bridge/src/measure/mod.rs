//! Run times of calls, measured in turn, so that what else the computer does slows all of them, and
//! what several benchmarks measure.

pub mod groups;
pub mod plans;
pub mod sides;

use std::hint::black_box;
use std::time::{Duration, Instant};

/// Batches of each call.
const BATCHES: usize = 101;
/// What a batch takes, roughly.
const BATCH: Duration = Duration::from_millis(2);

/// A call repeated so many times.
pub type Repeated<'a> = Box<dyn Fn(usize) + 'a>;

/// The best and the median time of a call, in ns.
#[derive(Clone, Copy, Debug)]
pub struct Times {
    /// Of the fastest batch.
    pub best: f64,
    /// Of the batch in the middle.
    pub median: f64,
}

/// A call that can be repeated; what it answers is thrown away.
pub fn repeated<'a, T>(call: impl Fn() -> T + 'a) -> Repeated<'a> {
    Box::new(move |times| {
        for _ in 0..times {
            black_box(call());
        }
    })
}

/// The times of some calls, a batch of each in turn.
pub fn times<const N: usize>(calls: &[Repeated; N]) -> [Times; N] {
    let repeats = calls.each_ref().map(repeats_in_a_batch);
    let mut batches = [const { Vec::new() }; N];
    for _ in 0..BATCHES {
        for (number, call) in calls.iter().enumerate() {
            let started = Instant::now();
            call(repeats[number]);
            let nanoseconds = started.elapsed().as_nanos() as f64;
            batches[number].push(nanoseconds / repeats[number] as f64);
        }
    }
    batches.map(best_and_median)
}

/// Says so if the build spends time on checks that only the second simulator has.
pub fn warn_of_checks() {
    if cfg!(debug_assertions) {
        println!("Built with overflow checks and assertions, which only the second simulator");
        println!("spends time on. '--profile fast' builds without them.\n");
    }
}

/// How often a call fits a batch.
fn repeats_in_a_batch(call: &Repeated) -> usize {
    let mut times = 1;
    loop {
        let started = Instant::now();
        call(times);
        if started.elapsed() >= BATCH {
            return times;
        }
        times *= 2;
    }
}

fn best_and_median(mut batches: Vec<f64>) -> Times {
    batches.sort_by(f64::total_cmp);
    Times {
        best: batches[0],
        median: batches[batches.len() / 2],
    }
}
