//! What several test files need.

// Each test file is a program of its own and uses a part of these.
#![allow(dead_code, unused_imports)]

mod fixtures;

pub use fixtures::{cups_with_an_unused_entry_set, every_section};

use cup_check::calls::{Ran, SecondSimulator, Simulator};
use cup_check::compare::{loaded_list, Found};
use cup_check::engine::Engine;
use cup_check::file::encode;
use cup_check::generate::{run_list, Family, Rng};
use cup_check::limits::{ACCEPTED, EVENT_BYTES, PAUSED, WORD_BYTES};
use cup_check::met::Met;
use cup_check::plain::{Observer, Plain};
use cup_check::plan::Plan;
use cup_check::raw::RawState;
use cup_check::words::{signed_at, word_at};

/// The simulator of this package.
pub const SIMULATOR: SecondSimulator = SecondSimulator {
    mutant: cup_check::engine::Mutant::None,
};

/// The byte that test buffers are filled with.
pub const MARK: u8 = 0xa5;

/// Refusal number and entry of a file; (0, 0) if it is accepted.
pub fn refusal(file: &[u8]) -> (usize, usize) {
    let loaded = SIMULATOR.load(file);
    (loaded.number, loaded.entry)
}

/// The same for the file of a plan, which may break any rule.
pub fn refusal_of_plan(plan: &Plan) -> (usize, usize) {
    refusal(&encode(plan))
}

/// The start state of an accepted plan.
pub fn loaded(plan: &Plan) -> RawState {
    let loaded = SIMULATOR.load(&encode(plan));
    assert_eq!((loaded.number, loaded.entry), (ACCEPTED, 0), "{plan:?}");
    loaded.state
}

/// A run with a buffer of exactly the length asked for; also the bytes written.
pub fn run(engine: Engine, state: &RawState, budget: u64) -> (Ran, Vec<u8>) {
    let events = budget as usize * state.plan.counts.events_per_instant();
    let mut buffer = vec![MARK; events * EVENT_BYTES];
    let ran = SIMULATOR.run(engine, state, budget, &mut buffer);
    assert_eq!(ran.number, ACCEPTED);
    buffer.truncate(ran.written);
    (ran, buffer)
}

/// The accepted run of a plan from its start.
pub fn run_plan(engine: Engine, plan: &Plan, budget: u64) -> Ran {
    run(engine, &loaded(plan), budget).0
}

/// The events in bytes as (tick, source, value).
pub fn events(bytes: &[u8]) -> Vec<(u32, u32, i32)> {
    bytes
        .chunks_exact(EVENT_BYTES)
        .map(|event| {
            let words = [word_at(event, 0), word_at(event, WORD_BYTES)];
            (words[0], words[1], signed_at(event, 2 * WORD_BYTES))
        })
        .collect()
}

/// The events of a plan's first instants, asserted to be the same by both engines and by the
/// plain machine.
pub fn events_of_plan(plan: &Plan, budget: u64) -> Vec<(u32, u32, i32)> {
    let mut plain = Plain::start(plan);
    plain.run(u128::from(budget));
    let expected = plain.event_bytes();
    for engine in Engine::BOTH {
        assert_eq!(run(engine, &loaded(plan), budget).1, expected, "{engine:?}");
    }
    events(&expected)
}

/// The listing text put together from the plain machine and its observer alone, if the plan ends
/// within `most` instants.
pub fn listing_by_plain(plan: &Plan, most: u128) -> Option<String> {
    let observer = Observer::of(plan);
    let mut plain = Plain::start(plan);
    let mut updates = 0;
    plain.run_observed(most, |taken| {
        updates += observer.moved(Engine::Lazy, taken).len()
    });
    let status = plain.status().number();
    let mut text = String::new();
    for event in &plain.events {
        text += &format!("{} {} {}\n", event.tick, event.source, event.value);
    }
    let (clock, instants) = (plain.clock, plain.instants);
    text += &format!("end {status} {clock} {instants} {updates}\n");
    (status != PAUSED).then_some(text)
}

/// The random generator of a family's seed.
pub fn rng_of(family: Family, seed: u64) -> Rng {
    Rng::new(seed << 8 | family as u64)
}

/// A random list of run calls on a random plan, compared with the plain machine.
pub fn compare_random(
    simulator: &dyn Simulator,
    family: Family,
    seed: u64,
    met: &mut Met,
) -> Found {
    let mut rng = rng_of(family, seed);
    let plan = family.plan(&mut rng);
    let list = run_list(&mut rng, plan.events_per_instant());
    loaded_list(simulator, &plan, &list, met)
        .map_err(|difference| format!("{family:?} seed {seed}: {difference}"))
}

/// The beginning of the first difference that a number of lists for each family shows.
pub fn first_difference(simulator: &dyn Simulator, lists: u64) -> Option<String> {
    let mut seeds = (0..lists).flat_map(|seed| Family::ALL.map(|family| (family, seed)));
    let difference = seeds.find_map(|(family, seed)| {
        compare_random(simulator, family, seed, &mut Met::default()).err()
    })?;
    Some(difference.chars().take(160).collect())
}
