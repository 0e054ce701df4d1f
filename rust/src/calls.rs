//! The public calls on raw states, declines 10 to 14 included.

use crate::engine::run::run;
use crate::engine::{Engine, Mutant, Rules, State};
use crate::file::{read, section, write};
use crate::limits::{ACCEPTED, EVENT_BYTES, LARGEST_BUDGET};
use crate::limits::{
    REFUSED_BUDGET, REFUSED_INTEGRATOR_NUMBER, REFUSED_RUN_BUFFER, REFUSED_UNSOUND,
    REFUSED_WRITE_BUFFER,
};
use crate::raw::RawState;
use crate::sound::sound_engine_state;

/// What load answers.
#[derive(Clone, Debug, PartialEq, Eq)]
pub struct Loaded {
    /// 0 or the refusal.
    pub number: usize,
    /// The lowest faulty entry, 0 for refusals 1 to 4.
    pub entry: usize,
    /// The start state, or the idle state.
    pub state: RawState,
}

/// What the plan writer answers.
#[derive(Clone, Debug, PartialEq, Eq)]
pub struct Written {
    /// 0 or the decline.
    pub number: usize,
    /// Bytes of the file.
    pub length: usize,
    /// The state handed in.
    pub state: RawState,
}

/// What a run answers.
#[derive(Clone, Debug, PartialEq, Eq)]
pub struct Ran {
    /// 0 or the decline.
    pub number: usize,
    /// The status of the returned state.
    pub status: usize,
    /// The integrator of status 2.
    pub integrator: usize,
    /// Bytes written.
    pub written: usize,
    /// The state after the run.
    pub state: RawState,
}

/// What the position call answers.
#[derive(Clone, Debug, PartialEq, Eq)]
pub struct Positioned {
    /// 0 or the decline.
    pub number: usize,
    /// x + s × (c − l).
    pub value: i64,
    /// The state handed in.
    pub state: RawState,
}

/// The calls of any simulator, so that the comparisons serve this one and others alike.
pub trait Simulator {
    /// Load.
    fn load(&self, file: &[u8]) -> Loaded;
    /// The section view.
    fn section<'f>(&self, file: &'f [u8], number: usize) -> &'f [u8];
    /// The plan writer.
    fn write(&self, state: &RawState, buffer: &mut [u8]) -> Written;
    /// The lazy or the eager run.
    fn run(&self, engine: Engine, state: &RawState, budget: u64, buffer: &mut [u8]) -> Ran;
    /// The position call.
    fn position(&self, state: &RawState, integrator: usize) -> Positioned;
}

/// The second simulator, with one rule exchanged on request.
#[derive(Clone, Copy, Debug, Default)]
pub struct SecondSimulator {
    /// The exchanged rule of the runs.
    pub mutant: Mutant,
}

impl Simulator for SecondSimulator {
    fn load(&self, file: &[u8]) -> Loaded {
        match read(file) {
            Ok(plan) => Loaded {
                number: ACCEPTED,
                entry: 0,
                state: RawState::from(&State::start(plan)),
            },
            Err(refusal) => Loaded {
                number: refusal.number(),
                entry: refusal.entry,
                state: RawState::idle(),
            },
        }
    }

    fn section<'f>(&self, file: &'f [u8], number: usize) -> &'f [u8] {
        section(file, number)
    }

    fn write(&self, state: &RawState, buffer: &mut [u8]) -> Written {
        let answer = |number, length| Written {
            number,
            length,
            state: state.clone(),
        };
        let Some(sound) = sound_engine_state(state) else {
            return answer(REFUSED_UNSOUND, 0);
        };
        match write(&sound.plan, buffer) {
            None => answer(REFUSED_WRITE_BUFFER, 0),
            Some(length) => answer(ACCEPTED, length),
        }
    }

    fn run(&self, engine: Engine, state: &RawState, budget: u64, buffer: &mut [u8]) -> Ran {
        let declined = |number| Ran {
            number,
            status: 0,
            integrator: 0,
            written: 0,
            state: state.clone(),
        };
        let Some(mut running) = sound_engine_state(state) else {
            return declined(REFUSED_UNSOUND);
        };
        if budget > LARGEST_BUDGET {
            return declined(REFUSED_BUDGET);
        }
        if buffer.len() < run_bytes(&running, budget) {
            return declined(REFUSED_RUN_BUFFER);
        }
        let rules: Rules = self.mutant.rules();
        let outcome = run(&mut running, engine, budget, buffer, &rules);
        Ran {
            number: ACCEPTED,
            status: outcome.status.number(),
            integrator: outcome.status.integrator(),
            written: outcome.written,
            state: RawState::from(&running),
        }
    }

    fn position(&self, state: &RawState, integrator: usize) -> Positioned {
        let answer = |number, value| Positioned {
            number,
            value,
            state: state.clone(),
        };
        let Some(sound) = sound_engine_state(state) else {
            return answer(REFUSED_UNSOUND, 0);
        };
        match sound.integrators.get(integrator) {
            None => answer(REFUSED_INTEGRATOR_NUMBER, 0),
            Some(found) => {
                let position = found.position_at(sound.clock);
                answer(
                    ACCEPTED,
                    i64::try_from(position).expect("between the levels"),
                )
            }
        }
    }
}

/// The bytes that a run's buffer must have: "budget×(n+m)×12". The budget is at most 1,024 here.
fn run_bytes(state: &State, budget: u64) -> usize {
    budget as usize * state.plan.events_per_instant() * EVENT_BYTES
}
