//! What is counted over lists of run calls.

use crate::engine::Engine;
use crate::limits::M;
use crate::met::Met;
use crate::plain::{Event, Plain, TakenInstant};
use crate::plan::Plan;
use crate::status::Status;

/// Accepted calls by the status answered.
pub const STATUSES: [&str; 3] = ["status 0", "status 1", "status 2"];

/// Instants of lazy calls that move none, some and all. None are moved by commands that reach nobody.
pub const LAZILY_MOVED: [&str; 3] = [
    "lazy instants that move none",
    "lazy instants that move some",
    "lazy instants that move all",
];

/// Counts an accepted call that took so many instants and left the plain machine here.
pub fn count_accepted(met: &mut Met, engine: Engine, instants: usize, plain: &Plain) {
    met.count(match engine {
        Engine::Lazy => "lazy calls",
        Engine::Eager => "eager calls",
    });
    met.count_if(instants == 0, "accepted, no instant");
    let status = plain.status();
    met.count(STATUSES[status.number()]);
    if let Status::Range(integrator) = status {
        count_range(met, integrator, plain);
    }
    let far = |due: &&u64| **due > 1 << 31;
    let far = plain.dues.iter().flatten().filter(far).count();
    met.add("due ticks above 2^31", far as u64);
}

/// Counts a range where the lowest due integrator is not the one to name, and at a tick that has commands.
fn count_range(met: &mut Met, integrator: usize, plain: &Plain) {
    let tick = plain.next_instant();
    let lowest_due = plain.dues.iter().position(|&due| due == tick);
    met.count_if(lowest_due < Some(integrator), "range above the lowest due");
    let command = plain.plan.commands.get(plain.next_command);
    let commanded = command.is_some_and(|command| Some(u64::from(command.tick)) == tick);
    met.count_if(commanded, "range that bars commands");
}

/// Counts an instant of a plan, of whose integrators a lazy engine moves `moved`.
pub fn count_instant(met: &mut Met, taken: &TakenInstant, moved: usize, plan: &Plan) {
    let (due, commanded) = (taken.due.len(), taken.commanded.len());
    met.count("instants");
    met.count_if(taken.tick == u64::from(plan.horizon), "at the horizon");
    met.count_if(due > 1, "several due");
    met.count_if(commanded > 1, "several commands");
    met.count_if(due > 0 && commanded > 0, "due and commanded");
    met.add("repeated values", taken.repeated as u64);
    met.add("clipped nodes", taken.clipped as u64);
    met.count_if(moved > due, "reached, not due");
    met.count_if(moved < plan.integrators.len(), "some not moved");
}

/// Counts an instant of a lazy call, which moves so many of a plan's integrators.
pub fn count_lazy(met: &mut Met, moved: usize, plan: &Plan) {
    let group = match moved {
        0 => 0,
        _ if moved < plan.integrators.len() => 1,
        _ => 2,
    };
    met.count(LAZILY_MOVED[group]);
}

/// Counts the events that the plain machine had in a call.
pub fn count_events(met: &mut Met, events: &[Event]) {
    met.add("events", events.len() as u64);
    let at_bound = |event: &&Event| event.value.abs() == M;
    let at_bound = events.iter().filter(at_bound).count();
    met.add("events at the bound", at_bound as u64);
}

/// Counts a list that took this many instants in all.
pub fn count_list(met: &mut Met, instants: u64) {
    met.count("lists");
    met.keep_highest("instants in the longest list", instants);
    met.count_if(instants > 1_000, "lists of more than 1,000 instants");
}
