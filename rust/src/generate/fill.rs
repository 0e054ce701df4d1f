//! Ways of filling a sound state, most of which no run leads to.
//!
//! Each starts from an accepted plan, chooses clock, last-moved ticks, outputs, positions between the
//! levels, inputs within ±M and counts, and works out slopes and due ticks by the plain machine's
//! rules. An integrator that would be due at or before the clock is taken as moved at the clock.

use super::rng::Rng;
use super::states::{
    between_instants, due_tick, first_later_command, move_the_overdue, set_slopes_and_dues,
    sound_state,
};
use crate::calls::{SecondSimulator, Simulator};
use crate::engine::Engine;
use crate::limits::{EVENT_BYTES, M};
use crate::plan::Plan;
use crate::raw::RawState;

/// How a sound state comes about.
#[derive(Clone, Copy, Debug, PartialEq, Eq, PartialOrd, Ord)]
pub enum Fill {
    /// Any clock, outputs, positions, inputs and counts.
    Anything,
    /// All of these at their limits or next to them.
    AtLimits,
    /// Several integrators brought to be due at one tick soon after the clock, often one that has
    /// commands.
    DueTogether,
    /// A clock that has run on by itself between two instants.
    BetweenInstants,
    /// What a run of some instants leaves: the only one that is reached.
    Reached,
}

impl Fill {
    /// Every way.
    pub const ALL: [Fill; 5] = [
        Fill::Anything,
        Fill::AtLimits,
        Fill::DueTogether,
        Fill::BetweenInstants,
        Fill::Reached,
    ];

    /// A sound state of an accepted plan.
    pub fn state(self, rng: &mut Rng, plan: &Plan) -> RawState {
        match self {
            Fill::Anything => sound_state(rng, plan),
            Fill::AtLimits => at_limits(rng, plan),
            Fill::DueTogether => due_together(rng, plan),
            Fill::BetweenInstants => {
                let state = reached(rng, plan);
                between_instants(rng, &state)
            }
            Fill::Reached => reached(rng, plan),
        }
    }
}

/// What some instants of either engine lead to from the start.
fn reached(rng: &mut Rng, plan: &Plan) -> RawState {
    let budget = rng.below(12) as u64;
    let engine = rng.pick(&Engine::BOTH);
    let mut buffer = vec![0; budget as usize * plan.events_per_instant() * EVENT_BYTES];
    let start = RawState::start(plan);
    let ran = SecondSimulator::default().run(engine, &start, budget, &mut buffer);
    ran.state
}

fn at_limits(rng: &mut Rng, plan: &Plan) -> RawState {
    let mut state = RawState::start(plan);
    let run = &mut state.run;
    let clock = notable_clock(rng, plan);
    run.clocks.clock = clock;
    run.clocks.next = first_later_command(plan, clock);
    for (i, integrator) in plan.integrators.iter().enumerate() {
        let furthest = integrator.quantum - 1;
        run.q[i] = notable_value(rng);
        run.x[i] = run.q[i] + rng.pick(&[0, furthest, -furthest, furthest / 2]);
        run.l[i] = rng.pick(&[0, clock, clock, clock.saturating_sub(1)]);
    }
    for input in 0..plan.inputs.len() {
        run.inputs[input] = notable_value(rng);
    }
    let clock = u64::from(clock);
    run.clocks.instants = rng.pick(&[0, 1.min(clock), clock, clock.saturating_sub(1)]);
    let most = run.clocks.instants * plan.integrators.len() as u64;
    run.clocks.updates = rng.pick(&[0, run.clocks.instants, most, most.saturating_sub(1)]);
    set_slopes_and_dues(&mut state);
    move_the_overdue(&mut state);
    state
}

fn notable_value(rng: &mut Rng) -> i64 {
    let value = rng.pick(&[M, M, M - 1, M / 2, 1, 0, 70_000]);
    value * rng.pick(&[1, -1])
}

/// The ends of its range, or at or next to a command's tick.
fn notable_clock(rng: &mut Rng, plan: &Plan) -> u32 {
    let ends = [0, 1, plan.horizon, plan.horizon - 1];
    match plan.commands.is_empty() || rng.once_in(2) {
        true => rng.pick(&ends).min(plan.horizon),
        false => {
            let command = plan.commands[rng.below(plan.commands.len())];
            (command.tick - 1 + rng.below(2) as u32).min(plan.horizon)
        }
    }
}

/// From any sound state: a tick is chosen, and integrators that can be due there are put where they
/// are.
fn due_together(rng: &mut Rng, plan: &Plan) -> RawState {
    let mut state = sound_state(rng, plan);
    let clock = state.run.clocks.clock;
    if clock == plan.horizon {
        return state;
    }
    let tick = match plan.commands.get(state.run.clocks.next) {
        Some(command) if rng.once_in(2) => command.tick,
        _ => clock + 1 + rng.below(3) as u32,
    };
    for i in 0..plan.integrators.len() {
        if !rng.once_in(4) {
            put_due_at(rng, &mut state, i, tick);
        }
    }
    state
}

/// Chooses l, and x so that the level ahead is reached at the tick and not before, if the slope
/// allows it.
fn put_due_at(rng: &mut Rng, state: &mut RawState, i: usize, tick: u32) {
    let (plan, run) = (&state.plan, &mut state.run);
    let (slope, quantum) = (run.s[i], plan.integrators.quanta[i]);
    let before = (run.x[i], run.l[i]);
    let clock = run.clocks.clock;
    run.l[i] = clock - clock.min(rng.below(3) as u32);
    let way = i128::from(slope) * i128::from(tick - run.l[i]);
    if slope == 0 {
        return;
    }
    // Of the last tick's way, how much lies behind the level.
    let any = rng.within(0, slope.abs() - 1);
    let behind = rng.pick(&[0, any]);
    let distance = way.abs() - i128::from(behind);
    if distance < 1 || distance >= 2 * i128::from(quantum) {
        (run.x[i], run.l[i]) = before;
        return;
    }
    let offset = quantum - distance as i64;
    run.x[i] = run.q[i] + slope.signum() * offset;
    run.d[i] = due_tick(plan, run, i);
}
