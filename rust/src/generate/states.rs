//! Sound states that are filled by hand and need not be reachable.

use super::rng::Rng;
use crate::limits::{M, NEVER};
use crate::plain::due::ticks_to_level;
use crate::plain::values;
use crate::plan::Plan;
use crate::raw::{RawCounts, RawPlan, RawRunning, RawState};

/// A sound state of an accepted plan with any clock, outputs, positions, inputs and counts. Slopes
/// and due ticks come from the plain machine's rules, not from the engines'.
pub fn sound_state(rng: &mut Rng, plan: &Plan) -> RawState {
    let mut state = RawState::start(plan);
    let bound = rng.pick(&[50, 5_000, M]);
    let run = &mut state.run;
    for (i, integrator) in plan.integrators.iter().enumerate() {
        run.q[i] = rng.within(-bound, bound);
        run.x[i] = run.q[i] + rng.within(1 - integrator.quantum, integrator.quantum - 1);
    }
    for input in 0..plan.inputs.len() {
        run.inputs[input] = rng.within(-bound, bound);
    }
    run.clocks.clock = clock(rng, plan);
    run.clocks.instants = rng.within(0, i64::from(run.clocks.clock)) as u64;
    let most = run.clocks.instants as i64 * plan.integrators.len() as i64;
    run.clocks.updates = rng.within(0, most) as u64;
    run.clocks.next = first_later_command(plan, run.clocks.clock);
    for i in 0..plan.integrators.len() {
        run.l[i] = rng.within(0, i64::from(run.clocks.clock)) as u32;
    }
    set_slopes_and_dues(&mut state);
    move_the_overdue(&mut state);
    state
}

/// The same state at a later clock before its next instant, as if a clock had run on by itself.
pub fn between_instants(rng: &mut Rng, state: &RawState) -> RawState {
    let n = state.plan.counts.n;
    let run = &state.run;
    let next_due = run.d[..n].iter().copied().min().unwrap_or(NEVER);
    let next_command = match run.clocks.next < state.plan.counts.commands {
        true => state.plan.commands.ticks[run.clocks.next],
        false => NEVER,
    };
    let last = (next_due.min(next_command) - 1).min(state.plan.horizon);
    let mut later = state.clone();
    later.run.clocks.clock = rng.within(i64::from(run.clocks.clock), i64::from(last)) as u32;
    later
}

/// The same state with every position taken at the clock, which leaves the due ticks as they are.
pub fn moved_to_clock(state: &RawState) -> RawState {
    let mut moved = state.clone();
    let run = &mut moved.run;
    for i in 0..state.plan.counts.n {
        run.x[i] += run.s[i] * i64::from(run.clocks.clock - run.l[i]);
        run.l[i] = run.clocks.clock;
    }
    moved
}

/// Works slopes and due ticks out anew from the plan, outputs, positions, inputs and l. The plan
/// must be an accepted one; the rest may be anything that the plain rules can work with.
pub fn set_slopes_and_dues(state: &mut RawState) {
    let plan = state.plan.to_plan().expect("counts within their limits");
    let run = &mut state.run;
    let RawCounts { n, m, .. } = state.plan.counts;
    let (outputs, inputs) = (&run.q[..n], &run.inputs[..m]);
    let values = values::of_all_sources(&plan, outputs, inputs);
    for i in 0..state.plan.counts.n {
        run.s[i] = values::slope(&plan, i, &values);
        run.d[i] = due_tick(&state.plan, run, i);
    }
}

/// The due tick of one integrator from its x, q, s and l.
pub fn due_tick(plan: &RawPlan, run: &RawRunning, i: usize) -> u32 {
    let ticks = ticks_to_level(run.x[i], run.q[i], plan.integrators.quanta[i], run.s[i]);
    ticks.map_or(NEVER, |ticks| run.l[i] + ticks as u32)
}

/// The first command with a tick above the clock, or the command count.
pub fn first_later_command(plan: &Plan, clock: u32) -> usize {
    let later = plan
        .commands
        .iter()
        .position(|command| command.tick > clock);
    later.unwrap_or(plan.commands.len())
}

/// Often small, since most is left to run then; sometimes the horizon itself.
fn clock(rng: &mut Rng, plan: &Plan) -> u32 {
    let horizon = i64::from(plan.horizon);
    match rng.below(8) {
        0 => plan.horizon,
        1 => 0,
        2 | 3 => rng.within(0, horizon) as u32,
        _ => rng.within(0, horizon.min(50)) as u32,
    }
}

/// An integrator due at or before the clock is taken as moved at the clock, which puts its due
/// tick above it.
pub fn move_the_overdue(state: &mut RawState) {
    let run = &mut state.run;
    for i in 0..state.plan.counts.n {
        if run.d[i] <= run.clocks.clock {
            run.l[i] = run.clocks.clock;
            run.d[i] = due_tick(&state.plan, run, i);
        }
    }
}
