//! Document 01's "A sound state", clause by clause, for a state filled with any numbers.
//!
//! The test of each clause is reached through the table [`Soundness`], so that a test can exchange
//! one of them by a [`Mutant`] and see a comparison fail.

pub mod mutant;
pub mod table;
pub mod unused;

pub use mutant::Mutant;
pub use table::Soundness;
pub use unused::Array;

use crate::engine::{IntegratorState, State};
use crate::file::rules;
use crate::file::Refusal;
use crate::limits::{Section, KIND_COMPARISON, KIND_LIMIT};
use crate::plan::{Link, Node, Plan};
use crate::raw::{RawCounts, RawState};
use std::borrow::Cow;

/// A clause that a state breaks, with the integrator or input where there is one.
#[derive(Clone, Copy, Debug, PartialEq, Eq)]
pub enum Clause {
    /// A count is outside its limits.
    Counts,
    /// The plan breaks one of the rules 4 to 9.
    Plan(Refusal),
    /// An unused entry of the plan is not 0.
    UnusedInPlan,
    /// An unused entry of the running part is not 0.
    UnusedInRun,
    /// c > horizon.
    ClockAboveHorizon,
    /// l > c.
    MovedAfterClock(usize),
    /// d ≤ c.
    DueNotAhead(usize),
    /// |q| > M.
    OutputBeyond(usize),
    /// |x − q| ≥ D.
    PositionOutsideLevels(usize),
    /// s does not keep Rate.
    Slope(usize),
    /// d does not keep Due.
    Due(usize),
    /// An input is beyond ±M.
    InputBeyond(usize),
    /// The next command is not the first with a tick above c.
    NextCommand,
    /// instants > c.
    InstantsAboveClock,
    /// updates > n × instants.
    UpdatesAboveMoves,
}

/// The engines' state for a sound raw state; `None` if it is not sound.
pub fn sound_engine_state(raw: &RawState) -> Option<State> {
    let table = &Soundness::DOCUMENT;
    let (counted, state) = counted_state(table, raw)?;
    broken_in(table, &counted, &state)
        .is_empty()
        .then_some(state)
}

/// Whether every clause is kept.
pub fn is_sound(raw: &RawState) -> bool {
    sound_engine_state(raw).is_some()
}

/// All clauses that a state breaks. With counts outside their limits, or with a plan that breaks
/// its rules, the clauses that build on them have no meaning and are left out.
pub fn broken_clauses(raw: &RawState) -> Vec<Clause> {
    broken_by(&Soundness::DOCUMENT, raw)
}

/// The same by a table of tests.
pub fn broken_by(table: &Soundness, raw: &RawState) -> Vec<Clause> {
    match counted_state(table, raw) {
        Some((counted, state)) => broken_in(table, &counted, &state),
        None => vec![Clause::Counts],
    }
}

/// The state as the engines keep it, if all counts are within their limits; its numbers may still
/// be any.
pub fn engine_state(raw: &RawState) -> Option<State> {
    Some(counted_state(&Soundness::DOCUMENT, raw)?.1)
}

/// The state with the counts that the table works with, and the same as the engines keep it.
fn counted_state<'r>(table: &Soundness, raw: &'r RawState) -> Option<(Cow<'r, RawState>, State)> {
    let counted = with_used_counts(table, raw)?;
    let plan = counted.plan.to_plan()?;
    let run = &counted.run;
    let integrator = |i| IntegratorState {
        x: run.x[i],
        q: run.q[i],
        s: run.s[i],
        l: run.l[i],
        d: run.d[i],
    };
    let state = State {
        integrators: (0..counted.plan.counts.n).map(integrator).collect(),
        inputs: run.inputs[..counted.plan.counts.m].to_vec(),
        clock: run.clocks.clock,
        next: run.clocks.next,
        instants: run.clocks.instants,
        updates: run.clocks.updates,
        plan,
    };
    Some((counted, state))
}

fn with_used_counts<'r>(table: &Soundness, raw: &'r RawState) -> Option<Cow<'r, RawState>> {
    let mut used = raw.plan.counts.by_section();
    for (section, count) in Section::ALL.into_iter().zip(&mut used) {
        *count = (table.count)(section, *count)?;
    }
    let used = RawCounts::of_sections(used);
    if used == raw.plan.counts {
        return Some(Cow::Borrowed(raw));
    }
    let mut counted = raw.clone();
    counted.plan.counts = used;
    Some(Cow::Owned(counted))
}

fn broken_in(table: &Soundness, raw: &RawState, state: &State) -> Vec<Clause> {
    let mut broken = Vec::new();
    let not_zero =
        |array: &Array| table.skipped_array != Some(*array) && array.unused_not_zero(raw);
    let in_plan = |array: &&Array| array.in_plan();
    if Array::ALL.iter().filter(in_plan).any(not_zero) {
        broken.push(Clause::UnusedInPlan);
    }
    if Array::ALL
        .iter()
        .filter(|array| !in_plan(array))
        .any(not_zero)
    {
        broken.push(Clause::UnusedInRun);
    }
    if let Err(refusal) = rules::check_by(&table.plan, &state.plan) {
        broken.push(Clause::Plan(refusal));
        return broken;
    }
    check_counters(table, state, &mut broken);
    check_inputs(table, state, &mut broken);
    check_integrators(table, state, &mut broken);
    broken
}

fn check_counters(table: &Soundness, state: &State, broken: &mut Vec<Clause>) {
    let clock = i128::from(state.clock);
    if !(table.clock)(clock, state.plan.horizon.into()) {
        broken.push(Clause::ClockAboveHorizon);
    }
    if !(table.next)(state.next, &state.plan, state.clock) {
        broken.push(Clause::NextCommand);
    }
    if !(table.instants)(state.instants.into(), clock) {
        broken.push(Clause::InstantsAboveClock);
    }
    let moves = state.integrators.len() as i128 * i128::from(state.instants);
    if !(table.updates)(state.updates.into(), moves) {
        broken.push(Clause::UpdatesAboveMoves);
    }
}

fn check_inputs(table: &Soundness, state: &State, broken: &mut Vec<Clause>) {
    for (number, &value) in state.inputs.iter().enumerate() {
        if !(table.input)(value.into()) {
            broken.push(Clause::InputBeyond(number));
        }
    }
}

/// The clauses of each integrator. i128 holds rates of wild outputs and distances of wild
/// positions, so that one wild number does not hide the clauses it does not touch.
fn check_integrators(table: &Soundness, state: &State, broken: &mut Vec<Clause>) {
    if !has_values(&state.plan) {
        // Only a table that passes over rules of the plan comes here.
        broken.push(Clause::Slope(0));
        return;
    }
    let clock = i128::from(state.clock);
    let values = state.source_values(&state.outputs(), &table.machine);
    for (number, integrator) in state.integrators.iter().enumerate() {
        let (x, q) = (i128::from(integrator.x), i128::from(integrator.q));
        let quantum = i128::from(state.plan.integrators[number].quantum);
        let mut unless = |kept: bool, clause: fn(usize) -> Clause| {
            if !kept {
                broken.push(clause(number));
            }
        };
        unless(
            (table.moved)(integrator.l.into(), clock),
            Clause::MovedAfterClock,
        );
        unless(
            (table.due_ahead)(clock, integrator.d.into()),
            Clause::DueNotAhead,
        );
        unless((table.output)(q), Clause::OutputBeyond);
        unless(
            (table.between_levels)(x, q, quantum),
            Clause::PositionOutsideLevels,
        );
        let right = state.slope(number, &values, &table.machine);
        unless((table.slope)(integrator.s.into(), right), Clause::Slope);
        // Due is asked of the slope that the state holds; whether that slope is right is Rate's
        // clause.
        let due = state.due_tick(number, integrator.s.into(), &table.machine);
        unless((table.due)(integrator.d, due), Clause::Due);
    }
}

/// Whether the values of all sources, and sums of them, can be worked out, as they can for every
/// plan that keeps the rules.
pub fn has_values(plan: &Plan) -> bool {
    let valued = |(number, node): (usize, &Node)| {
        let sources_below = plan.node_source(number);
        let limited = node.kind != KIND_LIMIT || node.low <= node.high;
        node.kind <= KIND_COMPARISON && node.a < sources_below && node.b < sources_below && limited
    };
    // 256 products of 32 and 64 bits fit 128.
    let summed =
        |link: &Link| link.source < plan.sources() && i32::try_from(link.coefficient).is_ok();
    plan.nodes.iter().enumerate().all(valued) && plan.links.iter().all(summed)
}
