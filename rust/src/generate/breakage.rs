//! States that break one clause of soundness and keep all others.

use super::plant::plant_in_plan;
use super::rng::Rng;
use super::states::{due_tick, first_later_command, moved_to_clock, set_slopes_and_dues};
use crate::file::{Cause, Refusal};
use crate::limits::{COMMANDS, INPUTS, INTEGRATORS, LINKS, NODES};
use crate::limits::{GRAINS_PER_ML, M, NEVER, REFUSED_SIZES};
use crate::plan::Plan;
use crate::raw::{RawPlan, RawState};
use crate::sound::Clause;

/// The clause to break.
#[derive(Clone, Copy, Debug, PartialEq, Eq)]
pub enum Breakage {
    /// A count outside its limits.
    Counts,
    /// A plan that breaks one of the rules 4 to 9.
    Plan,
    /// An unused entry of the plan that is not 0.
    UnusedInPlan,
    /// An unused entry of the running part that is not 0.
    UnusedInRun,
    /// c > horizon.
    ClockAboveHorizon,
    /// l > c.
    MovedAfterClock,
    /// d ≤ c.
    DueNotAhead,
    /// |q| > M.
    OutputBeyond,
    /// |x − q| ≥ D.
    PositionOutsideLevels,
    /// s off Rate, with d as Due asks for that s.
    Slope,
    /// d off Due.
    Due,
    /// An input beyond ±M.
    InputBeyond,
    /// Another next command.
    NextCommand,
    /// instants > c.
    InstantsAboveClock,
    /// updates > n × instants.
    UpdatesAboveMoves,
}

/// A broken state and the clause it breaks.
pub type Broken = (RawState, Clause);

impl Breakage {
    /// Every clause.
    pub const ALL: [Breakage; 15] = [
        Breakage::Counts,
        Breakage::Plan,
        Breakage::UnusedInPlan,
        Breakage::UnusedInRun,
        Breakage::ClockAboveHorizon,
        Breakage::MovedAfterClock,
        Breakage::DueNotAhead,
        Breakage::OutputBeyond,
        Breakage::PositionOutsideLevels,
        Breakage::Slope,
        Breakage::Due,
        Breakage::InputBeyond,
        Breakage::NextCommand,
        Breakage::InstantsAboveClock,
        Breakage::UpdatesAboveMoves,
    ];

    /// A sound state with this clause broken and no other; `None` if there is no such change.
    pub fn apply(self, rng: &mut Rng, sound: &RawState) -> Option<Broken> {
        let plan = sound.plan.to_plan().expect("the state is sound");
        let cup = rng.below(plan.integrators.len());
        let mut state = sound.clone();
        match self {
            Breakage::Counts => Some(break_count(rng, state)),
            Breakage::Plan => break_plan(rng, state, plan),
            Breakage::UnusedInPlan => {
                set_unused_in_plan(rng, &mut state.plan).then_some((state, Clause::UnusedInPlan))
            }
            Breakage::UnusedInRun => {
                set_unused_in_run(rng, &mut state).then_some((state, Clause::UnusedInRun))
            }
            Breakage::ClockAboveHorizon => pass_horizon(state, &plan),
            Breakage::MovedAfterClock => Some(move_after_clock(state, cup)),
            Breakage::DueNotAhead => advance_to_due(state, &plan),
            Breakage::OutputBeyond => Some(output_beyond(rng, state, cup)),
            Breakage::PositionOutsideLevels => Some(position_outside(rng, state, cup)),
            Breakage::Slope => Some(change_slope(rng, state, cup)),
            Breakage::Due => change_due(rng, state, cup),
            Breakage::InputBeyond => input_beyond(rng, state),
            Breakage::NextCommand => Some(change_next(rng, state)),
            Breakage::InstantsAboveClock => {
                state.run.clocks.instants =
                    rng.pick(&[u64::from(state.run.clocks.clock) + 1, u64::MAX]);
                Some((state, Clause::InstantsAboveClock))
            }
            Breakage::UpdatesAboveMoves => {
                let most = state.run.clocks.instants * state.plan.counts.n as u64;
                state.run.clocks.updates = rng.pick(&[most + 1, u64::MAX]);
                Some((state, Clause::UpdatesAboveMoves))
            }
        }
    }
}

/// A sound state with one number of the running part set to a wild one; it may still be sound.
pub fn with_wild_number(rng: &mut Rng, sound: &RawState) -> RawState {
    let mut state = sound.clone();
    let run = &mut state.run;
    let value = rng.pick(&[i64::MIN, i64::MAX, -1, M + 1, 1 << 32]);
    let place = rng.below(run.x.len());
    let input = rng.below(run.inputs.len());
    match rng.below(10) {
        0 => run.x[place] = value,
        1 => run.q[place] = value,
        2 => run.s[place] = value,
        3 => run.inputs[input] = value,
        4 => run.l[place] = value as u32,
        5 => run.d[place] = value as u32,
        6 => run.clocks.clock = value as u32,
        7 => run.clocks.next = value as usize,
        8 => run.clocks.instants = value as u64,
        _ => run.clocks.updates = value as u64,
    }
    state
}

fn break_count(rng: &mut Rng, mut state: RawState) -> Broken {
    let plan = &mut state.plan;
    let wild = [1 << 32, usize::MAX - 1, usize::MAX];
    match rng.below(6) {
        0 => plan.counts.n = 0,
        1 => plan.counts.n = rng.pick(&[INTEGRATORS + 1, wild[0], wild[1], wild[2]]),
        2 => plan.counts.m = rng.pick(&[INPUTS + 1, wild[0], wild[1], wild[2]]),
        3 => plan.counts.k = rng.pick(&[NODES + 1, wild[0], wild[1], wild[2]]),
        4 => plan.counts.links = rng.pick(&[LINKS + 1, wild[0], wild[1], wild[2]]),
        _ => plan.counts.commands = rng.pick(&[COMMANDS + 1, wild[0], wild[1], wild[2]]),
    }
    (state, Clause::Counts)
}

fn break_plan(rng: &mut Rng, mut state: RawState, mut plan: Plan) -> Option<Broken> {
    let of_entries: Vec<Cause> = Cause::ALL
        .into_iter()
        .filter(|cause| cause.number() > REFUSED_SIZES)
        .collect();
    let cause = rng.pick(&of_entries);
    let entry = plant_in_plan(rng, &mut plan, cause)?;
    state.plan = RawPlan::from(&plan);
    Some((state, Clause::Plan(Refusal { cause, entry })))
}

/// Sets an unused entry to 1; false if there is none.
fn set_unused<T: From<u8>>(rng: &mut Rng, entries: &mut [T], used: usize) -> bool {
    let unused = &mut entries[used..];
    if unused.is_empty() {
        return false;
    }
    unused[rng.below(unused.len())] = T::from(1);
    true
}

fn set_unused_in_plan(rng: &mut Rng, plan: &mut RawPlan) -> bool {
    match rng.below(14) {
        0 => set_unused(rng, &mut plan.integrators.starts, plan.counts.n),
        1 => set_unused(rng, &mut plan.integrators.quanta, plan.counts.n),
        2 => set_unused(rng, &mut plan.inputs.firsts, plan.counts.m),
        3 => set_unused(rng, &mut plan.nodes.kinds, plan.counts.k),
        4 => set_unused(rng, &mut plan.nodes.a, plan.counts.k),
        5 => set_unused(rng, &mut plan.nodes.b, plan.counts.k),
        6 => set_unused(rng, &mut plan.nodes.lows, plan.counts.k),
        7 => set_unused(rng, &mut plan.nodes.highs, plan.counts.k),
        8 => set_unused(rng, &mut plan.links.targets, plan.counts.links),
        9 => set_unused(rng, &mut plan.links.sources, plan.counts.links),
        10 => set_unused(rng, &mut plan.links.coefficients, plan.counts.links),
        11 => set_unused(rng, &mut plan.commands.ticks, plan.counts.commands),
        12 => set_unused(rng, &mut plan.commands.inputs, plan.counts.commands),
        _ => set_unused(rng, &mut plan.commands.values, plan.counts.commands),
    }
}

fn set_unused_in_run(rng: &mut Rng, state: &mut RawState) -> bool {
    let (run, n) = (&mut state.run, state.plan.counts.n);
    match rng.below(6) {
        0 => set_unused(rng, &mut run.x, n),
        1 => set_unused(rng, &mut run.q, n),
        2 => set_unused(rng, &mut run.s, n),
        3 => set_unused(rng, &mut run.l, n),
        4 => set_unused(rng, &mut run.d, n),
        _ => set_unused(rng, &mut run.inputs, state.plan.counts.m),
    }
}

/// Possible only if no integrator is due up to the tick after the horizon.
fn pass_horizon(mut state: RawState, plan: &Plan) -> Option<Broken> {
    state.run.clocks.clock = plan.horizon + 1;
    state.run.clocks.next = plan.commands.len();
    let dues = &state.run.d[..state.plan.counts.n];
    let all_later = dues.iter().all(|&d| d > state.run.clocks.clock);
    all_later.then_some((state, Clause::ClockAboveHorizon))
}

fn move_after_clock(mut state: RawState, cup: usize) -> Broken {
    state.run.l[cup] = state.run.clocks.clock + 1;
    state.run.d[cup] = due_tick(&state.plan, &state.run, cup);
    (state, Clause::MovedAfterClock(cup))
}

/// Possible only if a single integrator is due next, and up to the horizon.
fn advance_to_due(mut state: RawState, plan: &Plan) -> Option<Broken> {
    let dues = &state.run.d[..state.plan.counts.n];
    let tick = dues.iter().copied().min().unwrap_or(NEVER);
    let due: Vec<usize> = (0..dues.len()).filter(|&cup| dues[cup] == tick).collect();
    state.run.clocks.clock = tick;
    state.run.clocks.next = first_later_command(plan, tick);
    let possible = tick <= plan.horizon && due.len() == 1;
    possible.then(|| (state, Clause::DueNotAhead(due[0])))
}

fn output_beyond(rng: &mut Rng, state: RawState, cup: usize) -> Broken {
    let mut state = moved_to_clock(&state);
    state.run.q[cup] = rng.pick(&[M + 1, -M - 1]);
    state.run.x[cup] = state.run.q[cup];
    set_slopes_and_dues(&mut state);
    (state, Clause::OutputBeyond(cup))
}

fn position_outside(rng: &mut Rng, state: RawState, cup: usize) -> Broken {
    let mut state = moved_to_clock(&state);
    let offset = state.plan.integrators.quanta[cup] + rng.pick(&[0, 1, 1_000]);
    state.run.x[cup] = state.run.q[cup] + rng.pick(&[offset, -offset]);
    state.run.d[cup] = due_tick(&state.plan, &state.run, cup);
    (state, Clause::PositionOutsideLevels(cup))
}

fn change_slope(rng: &mut Rng, state: RawState, cup: usize) -> Broken {
    let mut state = moved_to_clock(&state);
    state.run.s[cup] += rng.pick(&[1, -1, GRAINS_PER_ML]);
    state.run.d[cup] = due_tick(&state.plan, &state.run, cup);
    (state, Clause::Slope(cup))
}

/// Possible only with another due tick that still lies after the clock.
fn change_due(rng: &mut Rng, mut state: RawState, cup: usize) -> Option<Broken> {
    let right = state.run.d[cup];
    let wrong = rng.pick(&[right.wrapping_add(1), right - 1, NEVER]);
    state.run.d[cup] = wrong;
    let possible = wrong != right && wrong > state.run.clocks.clock;
    possible.then_some((state, Clause::Due(cup)))
}

fn input_beyond(rng: &mut Rng, state: RawState) -> Option<Broken> {
    if state.plan.counts.m == 0 {
        return None;
    }
    let input = rng.below(state.plan.counts.m);
    let mut state = moved_to_clock(&state);
    state.run.inputs[input] = rng.pick(&[M + 1, -M - 1]);
    set_slopes_and_dues(&mut state);
    Some((state, Clause::InputBeyond(input)))
}

fn change_next(rng: &mut Rng, mut state: RawState) -> Broken {
    let right = state.run.clocks.next;
    state.run.clocks.next = rng.pick(&[right + 1, right.wrapping_sub(1), COMMANDS + 1, usize::MAX]);
    (state, Clause::NextCommand)
}
