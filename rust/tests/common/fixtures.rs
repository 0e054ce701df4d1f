//! A plan and states that several test files take apart.

use super::loaded;
use cup_check::limits::{LARGEST_COEFFICIENT, M, NEVER};
use cup_check::plan::Plan;
use cup_check::raw::{RawPlan, RawRunning, RawState};
use cup_check::samples::document_cup;
use cup_check::sound::Clause;

/// An accepted plan in which every section has entries and every node kind occurs.
pub fn every_section() -> Plan {
    Plan::new(100)
        .integrator(-M, 1)
        .integrator(M, M)
        .input(-M)
        .input(M)
        .difference(0, 3)
        .product(4, 4)
        .limit(5, -M, M)
        .comparison(6, 0, M, -M)
        .link(0, 0, -LARGEST_COEFFICIENT)
        .link(0, 7, LARGEST_COEFFICIENT)
        .link(1, 1, 1)
        .link(1, 2, -1)
        .command(1, 0, -M)
        .command(1, 1, M)
        .command(50, 0, 0)
        .command(100, 1, 0)
}

/// An unused entry of each array of the plan set, for a plan as small as document 01's cup.
const SET_UNUSED_IN_PLAN: [fn(&mut RawPlan); 14] = [
    |plan| plan.integrators.starts[31] = 1,
    |plan| plan.integrators.quanta[2] = 1,
    |plan| plan.inputs.firsts[1] = -1,
    |plan| plan.nodes.kinds[0] = 1,
    |plan| plan.nodes.a[15] = 1,
    |plan| plan.nodes.b[0] = 1,
    |plan| plan.nodes.lows[3] = -1,
    |plan| plan.nodes.highs[0] = 1,
    |plan| plan.links.targets[2] = 1,
    |plan| plan.links.sources[255] = 1,
    |plan| plan.links.coefficients[2] = 1,
    |plan| plan.commands.ticks[63] = 1,
    |plan| plan.commands.inputs[1] = 1,
    |plan| plan.commands.values[1] = 1,
];

/// The same for the running part.
const SET_UNUSED_IN_RUN: [fn(&mut RawRunning); 6] = [
    |run| run.x[2] = 1,
    |run| run.q[31] = 1,
    |run| run.s[2] = -1,
    |run| run.l[2] = 1,
    |run| run.d[2] = NEVER,
    |run| run.inputs[1] = 1,
];

/// Document 01's cup as it is loaded, once for each of the 20 arrays with an unused entry of that
/// array set, and the clause that this breaks.
pub fn cups_with_an_unused_entry_set() -> Vec<(RawState, Clause)> {
    let cup = loaded(&document_cup());
    let in_plan = SET_UNUSED_IN_PLAN.map(|set_unused| {
        let mut state = cup.clone();
        set_unused(&mut state.plan);
        (state, Clause::UnusedInPlan)
    });
    let in_run = SET_UNUSED_IN_RUN.map(|set_unused| {
        let mut state = cup.clone();
        set_unused(&mut state.run);
        (state, Clause::UnusedInRun)
    });
    in_plan.into_iter().chain(in_run).collect()
}
