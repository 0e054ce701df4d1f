//! What the campaign over instants counts, and how often it has to be met.

use super::STATES;
use crate::campaign::signs::{count_signs, SIGNS};
use cup_check::compare::counts::{self, STATUSES};
use cup_check::engine::Engine;
use cup_check::generate::Fill;
use cup_check::limits::INTEGRATORS;
use cup_check::met::Met;
use cup_check::plain::{Plain, TakenInstant};
use cup_check::plan::Plan;
use cup_check::raw::RawState;
use cup_check::status::Status;

/// How often each has to be met.
const ENOUGH: u64 = 300;

/// How many states of each fill, and with each sign of a state that no run leaves, there have to be.
const ENOUGH_OF_A_FILL: u64 = 1_000;

/// How many instants each engine has to take.
const ENOUGH_TAKEN: u64 = 100_000;

/// The count of the instants that an engine took.
fn taken_by(engine: Engine) -> &'static str {
    match engine {
        Engine::Lazy => "instants taken, lazy",
        Engine::Eager => "instants taken, eager",
    }
}

/// Instants of the lazy engine by how many they move.
const MOVED: [&str; 4] = ["1 moved", "2 to 7 moved", "8 to 31 moved", "32 moved"];

/// Instants of the lazy engine, with more than 7 integrators there.
const OF_MANY: [&str; 2] = ["all of many moved", "some of many moved"];

/// Instants of either engine by their commands.
const COMMANDS_MET: [&str; 3] = ["no command", "one command", "two commands or more"];

/// What [`counts`] counts of the instants of the lazy engine, and of all calls.
const COUNTED: [&str; 10] = [
    "accepted, no instant",
    "range above the lowest due",
    "several due",
    "due and commanded",
    "repeated values",
    "reached, not due",
    "clipped nodes",
    "at the horizon",
    "events at the bound",
    "due ticks above 2^31",
];

/// What has to be met.
pub fn required() -> Met {
    let mut met = Met::default();
    met.require("states", STATES);
    met.require_each(Fill::ALL.map(|fill| format!("{fill:?}")), ENOUGH_OF_A_FILL);
    met.require_each(SIGNS, ENOUGH_OF_A_FILL);
    met.require_each(Engine::BOTH.map(taken_by), ENOUGH_TAKEN);
    met.require_each(STATUSES, ENOUGH);
    met.require("32 integrators", ENOUGH);
    met.require_each(["buffer too short", "not sound"], ENOUGH);
    met.require("range, several due", ENOUGH);
    met.require_each(MOVED, ENOUGH);
    met.require_each(OF_MANY, ENOUGH);
    met.require_each(COMMANDS_MET, ENOUGH);
    met.require_each(COUNTED, ENOUGH);
    met
}

/// Counts a state.
pub fn count_state(met: &mut Met, fill: Fill, state: &RawState) {
    met.count("states");
    met.count(format!("{fill:?}"));
    count_signs(met, state);
    met.count_if(state.plan.counts.n == INTEGRATORS, "32 integrators");
}

/// Counts an accepted call from a state, by the plain machine after it.
pub fn count_answer(met: &mut Met, engine: Engine, before: &RawState, plain: &Plain) {
    let taken = (plain.instants - before.run.clocks.instants) as usize;
    counts::count_accepted(met, engine, taken, plain);
    counts::count_events(met, &plain.events);
    if let Status::Range(_) = plain.status() {
        let tick = plain.next_instant();
        let due = plain.dues.iter().filter(|&&due| due == tick).count();
        met.count_if(due > 1, "range, several due");
    }
}

/// Counts an instant that moves so many integrators.
pub fn count_instant(
    met: &mut Met,
    taken: &TakenInstant,
    moved: usize,
    engine: Engine,
    plan: &Plan,
) {
    met.count(taken_by(engine));
    met.count(COMMANDS_MET[taken.commanded.len().min(2)]);
    if engine == Engine::Eager {
        return;
    }
    counts::count_instant(met, taken, moved, plan);
    met.count(match moved {
        0 | 1 => MOVED[0],
        2..=7 => MOVED[1],
        8..=31 => MOVED[2],
        _ => MOVED[3],
    });
    let all = plan.integrators.len();
    if all > 7 {
        met.count(OF_MANY[usize::from(moved < all)]);
    }
}
