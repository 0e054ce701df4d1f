//! A raw state set against the plain machine.

use super::{same, Found};
use crate::generate::states::moved_to_clock;
use crate::limits::NEVER;
use crate::plain::{Moment, Plain};
use crate::raw::RawState;

/// Compares "everything but l, the stored x and updates"; the positions are for the position call.
pub fn same_as_plain(state: &RawState, plain: &Plain) -> Found {
    let (n, m) = (state.plan.counts.n, state.plan.counts.m);
    let run = &state.run;
    same("outputs", &run.q[..n], &plain.outputs[..])?;
    same("slopes", &run.s[..n], &plain.slopes[..])?;
    same("due ticks", dues(state), plain.dues.clone())?;
    same("inputs", &run.inputs[..m], &plain.inputs[..])?;
    same("clock", u64::from(run.clocks.clock), plain.clock)?;
    same("next command", run.clocks.next, plain.next_command)?;
    same("instants", run.clocks.instants, plain.instants)
}

fn dues(state: &RawState) -> Vec<Option<u64>> {
    let due = |&d: &u32| (d != NEVER).then_some(u64::from(d));
    state.run.d[..state.plan.counts.n].iter().map(due).collect()
}

/// The moment of a sound state, from which a plain machine can be continued.
pub fn moment_of(state: &RawState) -> Moment {
    let run = &moved_to_clock(state).run;
    Moment {
        positions: run.x[..state.plan.counts.n].to_vec(),
        outputs: run.q[..state.plan.counts.n].to_vec(),
        inputs: run.inputs[..state.plan.counts.m].to_vec(),
        clock: u64::from(run.clocks.clock),
        instants: run.clocks.instants,
    }
}
