//! Lists of run calls.

use super::rng::Rng;
use crate::engine::Engine;
use crate::limits::{EVENT_BYTES, LARGEST_BUDGET, LISTING_BUDGET};

/// One run call, without its state.
#[derive(Clone, Copy, Debug, PartialEq, Eq)]
pub struct Call {
    /// Lazy or eager.
    pub engine: Engine,
    /// The budget, which may be above 1,024.
    pub budget: u64,
    /// The length of the buffer, which may be too short.
    pub buffer: usize,
}

/// A list of run calls for a plan with this many integrators and inputs: by one engine alone, or by
/// both in any order.
pub fn run_list(rng: &mut Rng, events_per_instant: usize) -> Vec<Call> {
    let engines: &[Engine] = match rng.below(6) {
        0 => &[Engine::Lazy],
        1 => &[Engine::Eager],
        _ => &Engine::BOTH,
    };
    let calls = rng.below(10) + 1;
    (0..calls)
        .map(|_| call(rng, engines, events_per_instant * EVENT_BYTES))
        .collect()
}

/// Twelve calls with the largest budget and buffers that do, by either engine: more than 12,000 instants
/// of a plan that runs for so long.
pub fn long_list(rng: &mut Rng, events_per_instant: usize) -> Vec<Call> {
    let buffer = LARGEST_BUDGET as usize * events_per_instant * EVENT_BYTES;
    let engines = (0..12).map(|_| rng.pick(&Engine::BOTH));
    let call = |engine| Call {
        engine,
        budget: LARGEST_BUDGET,
        buffer,
    };
    engines.map(call).collect()
}

fn call(rng: &mut Rng, engines: &[Engine], instant_bytes: usize) -> Call {
    let engine = rng.pick(engines);
    let budget = budget(rng);
    Call {
        engine,
        budget,
        buffer: buffer(rng, budget, instant_bytes),
    }
}

fn budget(rng: &mut Rng) -> u64 {
    match rng.below(16) {
        0 => 0,
        1 | 2 => 1,
        3 => 2,
        4..=7 => rng.within(2, 30) as u64,
        8 | 9 => LISTING_BUDGET,
        10 | 11 => rng.within(LISTING_BUDGET as i64 + 1, 400) as u64,
        12 => rng.within(31, LISTING_BUDGET as i64 - 1) as u64,
        13 => LARGEST_BUDGET,
        14 => LARGEST_BUDGET + 1,
        _ => rng.pick(&[
            u64::MAX,
            u64::MAX,
            u64::MAX / EVENT_BYTES as u64,
            1 << 63,
            1 << 32,
            5_000,
        ]),
    }
}

/// Mostly the length asked for or a little more. A budget of one too many gets a buffer that would do
/// for it as often as not, since it is declined all the same; a wild one gets a short buffer.
fn buffer(rng: &mut Rng, budget: u64, instant_bytes: usize) -> usize {
    let would_do = budget == LARGEST_BUDGET + 1 && rng.once_in(2);
    if budget > LARGEST_BUDGET && !would_do {
        return rng.below(3) * instant_bytes;
    }
    let asked = budget as usize * instant_bytes;
    match rng.below(16) {
        0 | 1 => asked.saturating_sub(1),
        2 => asked.saturating_sub(instant_bytes),
        3 => 0,
        4..=7 => asked + rng.below(2 * instant_bytes),
        _ => asked,
    }
}
