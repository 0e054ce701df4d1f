//! Signs of a sound state that no run leaves.

use cup_check::met::Met;
use cup_check::raw::RawState;

/// A clock above 0 with no instant counted, and an input that differs from its first value although no
/// command of it has a tick up to the clock. A clock moves by instants alone, and an input changes by its
/// commands alone, so no run from a start leaves either.
pub const SIGNS: [&str; 2] = [
    "clock above 0, no instant counted",
    "input changed by no command",
];

/// Counts the signs of a sound state.
pub fn count_signs(met: &mut Met, state: &RawState) {
    let run = &state.run;
    met.count_if(run.clocks.clock > 0 && run.clocks.instants == 0, SIGNS[0]);
    let changed_alone = |input: usize| {
        run.inputs[input] != state.plan.inputs.firsts[input] && !is_commanded(state, input)
    };
    met.count_if((0..state.plan.counts.m).any(changed_alone), SIGNS[1]);
}

/// Whether a command of this input has a tick up to the clock.
fn is_commanded(state: &RawState, input: usize) -> bool {
    let commands = &state.plan.commands;
    let numbers = 0..state.plan.counts.commands;
    let mut past = numbers.filter(|&number| commands.ticks[number] <= state.run.clocks.clock);
    past.any(|number| commands.inputs[number] == input)
}
