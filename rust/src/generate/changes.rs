//! Sound states changed in one or two fields, near the limits of the clauses that speak of them.

use super::rng::Rng;
use crate::engine::{Rules, State};
use crate::limits::{
    COMMANDS, INPUTS, INTEGRATORS, KIND_COMPARISON, KIND_LIMIT, LARGEST_COEFFICIENT,
    LARGEST_HORIZON, LINKS, M, NEVER, NODES,
};
use crate::plan::Plan;
use crate::raw::{RawCounts, RawPlan, RawState};
use crate::sound::table::first_command_after;
use crate::sound::{engine_state, has_values, Array};

/// Numbers at the ends of 64 and of 32 bits.
const WILD: [i64; 8] = [
    i64::MIN,
    i64::MIN + 1,
    i64::MAX,
    -1,
    1 << 32,
    1 << 62,
    i32::MIN as i64,
    u32::MAX as i64,
];

/// Changes one or two fields of a sound state. Often what follows from them is then set right, so
/// that a single clause is broken, or none.
pub fn change_fields(rng: &mut Rng, state: &mut RawState) {
    change_field(rng, state);
    if rng.once_in(3) {
        change_field(rng, state);
    }
    match rng.below(8) {
        0 => set_next(state),
        1 => recompute(state, Recomputed::DueTicks),
        2..=4 => recompute(state, Recomputed::SlopesAndDueTicks),
        _ => (),
    }
}

/// A state that would be sound if a plan could do without integrators.
pub fn without_integrators(rng: &mut Rng) -> RawState {
    let mut plan = Plan::new(rng.within(1, 40) as u32).input(rng.within(-9, 9));
    if rng.once_in(2) {
        plan = plan.comparison(0, 0, 1, 2);
    }
    if rng.once_in(2) {
        plan = plan.command(1, 0, 5);
    }
    let mut state = RawState::idle();
    state.plan = RawPlan::from(&plan);
    (state.run.d[0], state.run.inputs[0]) = (0, plan.inputs[0]);
    state.run.clocks.clock = rng.below(2) as u32;
    state.run.clocks.next = first_command_after(&plan, state.run.clocks.clock);
    state
}

fn change_field(rng: &mut Rng, state: &mut RawState) {
    match rng.below(16) {
        0 => change_count(rng, &mut state.plan.counts),
        1 | 2 => set_any_unused(rng, state),
        3 => change_start_or_quantum(rng, state),
        4 => change_node(rng, &mut state.plan),
        5 => change_link(rng, &mut state.plan),
        6 => change_command(rng, state),
        7 => change_horizon_or_first_value(rng, state),
        8..=12 => change_figure_or_input(rng, state),
        _ => change_counter(rng, state),
    }
}

/// A limit or a neighbour of one, the number itself a little changed, or a wild one.
fn near_limit(rng: &mut Rng, now: i64, limits: &[i64]) -> i64 {
    match rng.below(10) {
        0 => rng.pick(&WILD),
        1 => now.wrapping_add(rng.pick(&[1, -1])),
        2 => now.wrapping_add(rng.pick(&[1 << 32, 1 << 8, i64::MIN])),
        3 => now.wrapping_neg(),
        _ => rng.pick(limits).wrapping_add(rng.pick(&[0, 0, 1, -1])),
    }
}

fn change_count(rng: &mut Rng, counts: &mut RawCounts) {
    let (count, most) = match rng.below(5) {
        0 => (&mut counts.n, INTEGRATORS),
        1 => (&mut counts.m, INPUTS),
        2 => (&mut counts.k, NODES),
        3 => (&mut counts.links, LINKS),
        _ => (&mut counts.commands, COMMANDS),
    };
    *count = near_limit(rng, *count as i64, &[0, most as i64]) as usize;
}

fn change_horizon_or_first_value(rng: &mut Rng, state: &mut RawState) {
    let plan = &mut state.plan;
    if rng.once_in(2) || plan.counts.m == 0 {
        let last = plan.commands.ticks[plan.counts.commands.clamp(1, COMMANDS) - 1];
        let clock = state.run.clocks.clock;
        let limits = [0, LARGEST_HORIZON.into(), clock.into(), last.into()];
        plan.horizon = near_limit(rng, plan.horizon.into(), &limits) as u32;
    } else {
        let first = &mut plan.inputs.firsts[rng.below(plan.counts.m.min(INPUTS))];
        *first = near_limit(rng, *first, &[M, -M]);
    }
}

fn change_start_or_quantum(rng: &mut Rng, state: &mut RawState) {
    let (integrators, run) = (&mut state.plan.integrators, &state.run);
    let i = used_entry(rng, state.plan.counts.n, INTEGRATORS);
    if rng.once_in(2) {
        integrators.starts[i] = near_limit(rng, integrators.starts[i], &[M, -M]);
    } else {
        let offset = run.x[i].wrapping_sub(run.q[i]).wrapping_abs();
        integrators.quanta[i] = near_limit(rng, integrators.quanta[i], &[0, M, offset]);
    }
}

fn change_node(rng: &mut Rng, plan: &mut RawPlan) {
    let (counts, nodes) = (plan.counts, &mut plan.nodes);
    let j = used_entry(rng, counts.k, NODES);
    let own = counts.n.wrapping_add(counts.m).wrapping_add(j) as i64;
    match rng.below(5) {
        0 => {
            nodes.kinds[j] = near_limit(
                rng,
                nodes.kinds[j] as i64,
                &[0, KIND_LIMIT as i64, KIND_COMPARISON as i64],
            ) as usize
        }
        1 => nodes.a[j] = near_limit(rng, nodes.a[j] as i64, &[0, own]) as usize,
        2 => nodes.b[j] = near_limit(rng, nodes.b[j] as i64, &[0, own]) as usize,
        3 => nodes.lows[j] = near_limit(rng, nodes.lows[j], &[M, -M, 0, nodes.highs[j]]),
        _ => nodes.highs[j] = near_limit(rng, nodes.highs[j], &[M, -M, 0, nodes.lows[j]]),
    }
}

fn change_link(rng: &mut Rng, plan: &mut RawPlan) {
    let (counts, links) = (plan.counts, &mut plan.links);
    let entry = used_entry(rng, counts.links, LINKS);
    let beside = [entry.saturating_sub(1), (entry + 1).min(LINKS - 1)];
    let targets = beside.map(|entry| links.targets[entry] as i64);
    let sources = beside.map(|entry| links.sources[entry] as i64);
    match rng.below(4) {
        0 => {
            let limits = [counts.n as i64, targets[0], targets[1]];
            links.targets[entry] = near_limit(rng, links.targets[entry] as i64, &limits) as usize;
        }
        1 => {
            let all = counts.n.wrapping_add(counts.m).wrapping_add(counts.k) as i64;
            let limits = [all, sources[0], sources[1]];
            links.sources[entry] = near_limit(rng, links.sources[entry] as i64, &limits) as usize;
        }
        2 => {
            let limits = [0, LARGEST_COEFFICIENT, -LARGEST_COEFFICIENT];
            links.coefficients[entry] = near_limit(rng, links.coefficients[entry], &limits);
        }
        _ => {
            // The keys of two links exchanged, or one repeated.
            let from = beside[rng.below(2)];
            let keys = [entry, from].map(|entry| (links.targets[entry], links.sources[entry]));
            (links.targets[entry], links.sources[entry]) = keys[1];
            if rng.once_in(2) {
                (links.targets[from], links.sources[from]) = keys[0];
            }
        }
    }
}

fn change_command(rng: &mut Rng, state: &mut RawState) {
    let (counts, commands) = (state.plan.counts, &mut state.plan.commands);
    let entry = used_entry(rng, counts.commands, COMMANDS);
    let beside = [entry.saturating_sub(1), (entry + 1).min(COMMANDS - 1)];
    let from = beside[rng.below(2)];
    match rng.below(4) {
        0 => {
            let near_ticks = beside.map(|entry| i64::from(commands.ticks[entry]));
            let (horizon, clock) = (state.plan.horizon.into(), state.run.clocks.clock.into());
            let limits = [0, horizon, horizon, clock, near_ticks[0], near_ticks[1]];
            commands.ticks[entry] = near_limit(rng, commands.ticks[entry].into(), &limits) as u32;
        }
        1 => {
            let limits = [counts.m as i64, commands.inputs[from] as i64];
            commands.inputs[entry] =
                near_limit(rng, commands.inputs[entry] as i64, &limits) as usize;
        }
        2 => commands.values[entry] = near_limit(rng, commands.values[entry], &[M, -M]),
        _ => {
            commands.ticks[entry] = commands.ticks[from];
            commands.inputs[entry] = commands.inputs[from];
        }
    }
}

fn change_figure_or_input(rng: &mut Rng, state: &mut RawState) {
    let (plan, run) = (&state.plan, &mut state.run);
    let i = used_entry(rng, plan.counts.n, INTEGRATORS);
    let (x, q, quantum) = (run.x[i], run.q[i], plan.integrators.quanta[i]);
    let levels = |of: i64| [of.wrapping_add(quantum), of.wrapping_sub(quantum)];
    let clock = i64::from(run.clocks.clock);
    match rng.below(7) {
        0 | 1 => run.x[i] = near_limit(rng, x, &[levels(q)[0], levels(q)[1], q]),
        2 => run.q[i] = near_limit(rng, q, &[M, -M, levels(x)[0], levels(x)[1]]),
        3 => run.s[i] = near_limit(rng, run.s[i], &[0, run.s[i]]),
        4 => run.l[i] = near_limit(rng, run.l[i].into(), &[clock, 0]) as u32,
        5 => {
            run.d[i] = near_limit(
                rng,
                run.d[i].into(),
                &[clock, NEVER.into(), run.l[i].into()],
            ) as u32
        }
        _ => {
            let input = &mut run.inputs[used_entry(rng, plan.counts.m, INPUTS)];
            *input = near_limit(rng, *input, &[M, -M]);
        }
    }
}

fn change_counter(rng: &mut Rng, state: &mut RawState) {
    let (plan, run) = (&state.plan, &mut state.run);
    let clocks = &mut run.clocks;
    let clock = i64::from(clocks.clock);
    match rng.below(4) {
        0 => {
            let used = plan.counts.n.min(INTEGRATORS);
            let due = run.d[..used].iter().copied().min().unwrap_or(NEVER);
            let moved = run.l[..used].iter().copied().max().unwrap_or(0);
            let tick = plan.commands.ticks[clocks.next.min(COMMANDS - 1)];
            let limits = [plan.horizon, due, moved, tick].map(i64::from);
            clocks.clock = near_limit(rng, clock, &limits) as u32;
        }
        1 => {
            let limits = [0, plan.counts.commands as i64, clocks.next as i64];
            clocks.next = near_limit(rng, clocks.next as i64, &limits) as usize;
        }
        2 => {
            let least = clocks.updates.div_ceil(plan.counts.n.max(1) as u64);
            clocks.instants =
                near_limit(rng, clocks.instants as i64, &[0, clock, least as i64]) as u64;
        }
        _ => {
            let most = clocks.instants.wrapping_mul(plan.counts.n as u64) as i64;
            clocks.updates = near_limit(rng, clocks.updates as i64, &[0, most]) as u64;
        }
    }
}

/// A used entry, the first if there is none.
fn used_entry(rng: &mut Rng, used: usize, most: usize) -> usize {
    rng.below(used.clamp(1, most))
}

/// Sets an entry behind the used ones, if there are any.
fn set_any_unused(rng: &mut Rng, state: &mut RawState) {
    let (plan, run) = (&mut state.plan, &mut state.run);
    let RawCounts {
        n,
        m,
        k,
        links,
        commands,
    } = plan.counts;
    match rng.pick(&Array::ALL) {
        Array::Starts => set_unused(rng, &mut plan.integrators.starts, n, |word| word),
        Array::Quanta => set_unused(rng, &mut plan.integrators.quanta, n, |word| word),
        Array::Firsts => set_unused(rng, &mut plan.inputs.firsts, m, |word| word),
        Array::Kinds => set_unused(rng, &mut plan.nodes.kinds, k, |word| word as usize),
        Array::A => set_unused(rng, &mut plan.nodes.a, k, |word| word as usize),
        Array::B => set_unused(rng, &mut plan.nodes.b, k, |word| word as usize),
        Array::Lows => set_unused(rng, &mut plan.nodes.lows, k, |word| word),
        Array::Highs => set_unused(rng, &mut plan.nodes.highs, k, |word| word),
        Array::Targets => set_unused(rng, &mut plan.links.targets, links, |word| word as usize),
        Array::Sources => set_unused(rng, &mut plan.links.sources, links, |word| word as usize),
        Array::Coefficients => set_unused(rng, &mut plan.links.coefficients, links, |word| word),
        Array::Ticks => set_unused(rng, &mut plan.commands.ticks, commands, |word| word as u32),
        Array::CommandInputs => set_unused(rng, &mut plan.commands.inputs, commands, |word| {
            word as usize
        }),
        Array::Values => set_unused(rng, &mut plan.commands.values, commands, |word| word),
        Array::X => set_unused(rng, &mut run.x, n, |word| word),
        Array::Q => set_unused(rng, &mut run.q, n, |word| word),
        Array::S => set_unused(rng, &mut run.s, n, |word| word),
        Array::L => set_unused(rng, &mut run.l, n, |word| word as u32),
        Array::D => set_unused(rng, &mut run.d, n, |word| word as u32),
        Array::Inputs => set_unused(rng, &mut run.inputs, m, |word| word),
    }
}

/// The first unused entry, the last, or any.
fn set_unused<T>(rng: &mut Rng, entries: &mut [T], used: usize, of: fn(i64) -> T) {
    let unused = entries.get_mut(used..).unwrap_or(&mut []);
    if let Some(last) = unused.len().checked_sub(1) {
        let any = rng.below(unused.len());
        let value = near_limit(rng, 0, &[1, M]);
        unused[rng.pick(&[0, last, any])] = of(value);
    }
}

/// What is worked out anew after a change.
#[derive(Clone, Copy, PartialEq, Eq)]
enum Recomputed {
    /// d by Due from the slope that is held.
    DueTicks,
    /// s by Rate, then d; who would be due by the clock is taken as moved at the clock.
    SlopesAndDueTicks,
}

/// Works with any numbers; where the plan has no values, all stays as it is.
fn recompute(state: &mut RawState, what: Recomputed) {
    let Some(mut kept) = engine_state(state).filter(|kept| has_values(&kept.plan)) else {
        return;
    };
    let values = kept.source_values(&kept.outputs(), &Rules::DOCUMENT);
    for i in 0..kept.integrators.len() {
        if what == Recomputed::SlopesAndDueTicks {
            kept.integrators[i].s = kept.slope(i, &values, &Rules::DOCUMENT) as i64;
        }
        kept.integrators[i].d = due(&kept, i);
        if what == Recomputed::SlopesAndDueTicks && kept.integrators[i].d <= kept.clock {
            kept.integrators[i].l = kept.clock;
            kept.integrators[i].d = due(&kept, i);
        }
        (state.run.s[i], state.run.l[i]) = (kept.integrators[i].s, kept.integrators[i].l);
        state.run.d[i] = kept.integrators[i].d;
    }
    set_next(state);
}

fn due(kept: &State, i: usize) -> u32 {
    let tick = kept.due_tick(i, kept.integrators[i].s.into(), &Rules::DOCUMENT);
    tick.map_or(NEVER, |tick| u32::try_from(tick).unwrap_or(NEVER))
}

fn set_next(state: &mut RawState) {
    let used = state.plan.counts.commands.min(COMMANDS);
    let ticks = &state.plan.commands.ticks[..used];
    let first = ticks.iter().position(|&tick| tick > state.run.clocks.clock);
    state.run.clocks.next = first.unwrap_or(used);
}
