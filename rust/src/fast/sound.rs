//! The test of soundness, for a state filled with any numbers.

use super::rules::{self, BELOW_EVERY_KEY};
use super::start::slopes;
use super::IntegratorState;
use crate::limits::M;
use crate::raw::{RawPlan, RawRunning, RawState};
use std::ops::BitOr;

/// Whether a state is sound.
#[inline(never)]
pub fn sound(state: RawState) -> bool {
    let RawState { plan, run } = &state;
    plan.counts.fit()
        && plan.counts.n >= 1
        && keeps_rules(plan)
        && unused_in_plan_are_zero(plan)
        && unused_in_run_are_zero(plan, run)
        && clocks_are_sound(plan, run)
        && integrators_are_sound(plan, run)
}

/// The rules of the plan's entries, for counts within their limits.
fn keeps_rules(plan: &RawPlan) -> bool {
    let counts = &plan.counts;
    let first_node = counts.n + counts.m;
    rules::horizon(plan.horizon)
        && (0..counts.n).all(|i| rules::integrator(&plan.integrators.entry(i)))
        && plan.inputs.firsts[..counts.m]
            .iter()
            .all(|&first| rules::input(first))
        && (0..counts.k).all(|j| rules::node(&plan.nodes.entry(j), first_node + j))
        && links_keep_rules(plan)
        && commands_keep_rules(plan)
}

fn links_keep_rules(plan: &RawPlan) -> bool {
    let mut last = BELOW_EVERY_KEY;
    for number in 0..plan.counts.links {
        let entry = plan.links.entry(number);
        // The key of a link within its limits alone can be worked out.
        if !rules::link(&entry, &plan.counts) || rules::link_key(&entry) <= last {
            return false;
        }
        last = rules::link_key(&entry);
    }
    true
}

fn commands_keep_rules(plan: &RawPlan) -> bool {
    let mut last = BELOW_EVERY_KEY;
    for number in 0..plan.counts.commands {
        let entry = plan.commands.entry(number);
        let is_within = rules::command(&entry, &plan.counts, plan.horizon);
        if !is_within || rules::command_key(&entry) <= last {
            return false;
        }
        last = rules::command_key(&entry);
    }
    true
}

fn unused_in_plan_are_zero(plan: &RawPlan) -> bool {
    let counts = &plan.counts;
    let (integrators, nodes) = (&plan.integrators, &plan.nodes);
    let (links, commands) = (&plan.links, &plan.commands);
    zero_from(counts.n, &integrators.starts)
        && zero_from(counts.n, &integrators.quanta)
        && zero_from(counts.m, &plan.inputs.firsts)
        && zero_from(counts.k, &nodes.kinds)
        && zero_from(counts.k, &nodes.a)
        && zero_from(counts.k, &nodes.b)
        && zero_from(counts.k, &nodes.lows)
        && zero_from(counts.k, &nodes.highs)
        && zero_from(counts.links, &links.targets)
        && zero_from(counts.links, &links.sources)
        && zero_from(counts.links, &links.coefficients)
        && zero_from(counts.commands, &commands.ticks)
        && zero_from(counts.commands, &commands.inputs)
        && zero_from(counts.commands, &commands.values)
}

fn unused_in_run_are_zero(plan: &RawPlan, run: &RawRunning) -> bool {
    let (n, m) = (plan.counts.n, plan.counts.m);
    zero_from(n, &run.x)
        && zero_from(n, &run.q)
        && zero_from(n, &run.s)
        && zero_from(n, &run.l)
        && zero_from(n, &run.d)
        && zero_from(m, &run.inputs)
}

/// With no branch for an entry, so that several are looked at together.
fn zero_from<T>(used: usize, entries: &[T]) -> bool
where
    T: Copy + Default + PartialEq + BitOr<Output = T>,
{
    let unused = entries[used..].iter();
    unused.fold(T::default(), |all, &entry| all | entry) == T::default()
}

/// The clock, the next command and the counts, for a plan that keeps its rules.
fn clocks_are_sound(plan: &RawPlan, run: &RawRunning) -> bool {
    let clocks = &run.clocks;
    let ticks = &plan.commands.ticks[..plan.counts.commands];
    // Ticks ascend, so the first above the clock is known by its neighbour.
    let is_next = clocks.next <= ticks.len()
        && ticks[clocks.next..]
            .first()
            .is_none_or(|&tick| tick > clocks.clock)
        && ticks[..clocks.next]
            .last()
            .is_none_or(|&tick| tick <= clocks.clock);
    clocks.clock <= plan.horizon
        && is_next
        && clocks.instants <= u64::from(clocks.clock)
        && clocks.updates <= plan.counts.n as u64 * clocks.instants
}

/// Inputs and integrators, for a plan that keeps its rules and a clock up to the horizon.
fn integrators_are_sound(plan: &RawPlan, run: &RawRunning) -> bool {
    let (n, m) = (plan.counts.n, plan.counts.m);
    let are_within = |values: &[i64]| values.iter().all(|&value| rules::within(value, M));
    if !are_within(&run.inputs[..m]) || !are_within(&run.q[..n]) {
        return false;
    }
    let slopes = slopes(plan, &run.q, &run.inputs);
    (0..n).all(|i| integrator_is_sound(plan, run, i, slopes[i]))
}

fn integrator_is_sound(plan: &RawPlan, run: &RawRunning, i: usize, slope: i64) -> bool {
    let (x, q, l, d) = (run.x[i], run.q[i], run.l[i], run.d[i]);
    let quantum = plan.integrators.quanta[i];
    let clock = run.clocks.clock;
    // An x so far away that the difference wraps stays far away.
    let is_between_levels = x.wrapping_sub(q).unsigned_abs() < quantum as u64;
    let now = IntegratorState { x, s: slope, l };
    l <= clock && clock < d && is_between_levels && run.s[i] == slope && d == now.due(quantum, q)
}
