//! What happens between the calls of a list.
//!
//! No call keeps anything, so whatever is asked of other states in between must leave the list as it is.

use super::counts::{count_call, OTHER_LISTS, UNSOUND};
use crate::state::State;
use cup_check::calls::{SecondSimulator, Simulator};
use cup_check::compare::{continued_list, same, same_events};
use cup_check::compare::{Called, Found, Hook, MarkedBuffer};
use cup_check::engine::Engine;
use cup_check::generate::changes::change_fields;
use cup_check::generate::{plans, run_list, Breakage, Call, Fill, Rng};
use cup_check::limits::{EVENT_BYTES, LARGEST_BUDGET, LISTING_BUDGET, REFUSED_UNSOUND};
use cup_check::limits::{INPUTS, INTEGRATORS};
use cup_check::met::Met;
use cup_check::raw::RawState;
use cup_check::sound::is_sound;

/// Once in so many calls, an unsound state is handed in after it.
const UNSOUND_ONCE_IN: usize = 4;

/// Once in so many calls, a list of another plan is begun and ended after it, from a state that is
/// filled by hand.
const OTHER_LIST_ONCE_IN: usize = 12;

/// The most calls of that list, and the largest budget that it is not declined for.
const OTHER_CALLS: usize = 2;
const OTHER_BUDGET: u64 = 20;

/// The bytes of the largest instant.
const INSTANT_BYTES: usize = (INTEGRATORS + INPUTS) * EVENT_BYTES;

/// Who is compared between the calls of a list.
pub struct BetweenCalls<'a> {
    pub simulator: &'a dyn Simulator,
    pub second: SecondSimulator,
    pub rng: Rng,
    /// The engines of the list's calls that took instants.
    pub engines: Vec<Engine>,
}

impl Hook for BetweenCalls<'_> {
    fn after_call(&mut self, called: &Called, met: &mut Met) -> Found {
        count_call(met, called);
        if called.instants > 0 {
            self.engines.push(called.call.engine);
        }
        self.check_engine(called)
            .map_err(|difference| format!("second simulator's engine: {difference}"))?;
        if self.rng.once_in(UNSOUND_ONCE_IN) {
            self.check_unsound(&called.ran.state)
                .map_err(|difference| format!("then an unsound state: {difference}"))?;
            met.count(UNSOUND);
        }
        if self.rng.once_in(OTHER_LIST_ONCE_IN) {
            self.check_other_list()
                .map_err(|difference| format!("then another list: {difference}"))?;
            met.count(OTHER_LISTS);
        }
        Ok(())
    }
}

impl BetweenCalls<'_> {
    /// The same call by the second simulator's engine: every figure, every byte and every field of the
    /// state, stored positions and last-moved ticks too, which the plain machine does not have.
    fn check_engine(&self, called: &Called) -> Found {
        let (call, ran) = (called.call, called.ran);
        let mut buffer = MarkedBuffer::new(call.buffer);
        let expected = self
            .second
            .run(call.engine, called.before, call.budget, buffer.handed());
        same(
            "number, status, integrator, written",
            (ran.number, ran.status, ran.integrator, ran.written),
            (
                expected.number,
                expected.status,
                expected.integrator,
                expected.written,
            ),
        )?;
        let events = buffer.first(expected.written).unwrap_or_default();
        same_events(Some(called.written), events)?;
        if ran.state == expected.state {
            return Ok(());
        }
        let differences = State::from(&expected.state).differences(&State::from(&ran.state));
        same("state", differences, Vec::new())
    }

    /// A state that is not sound is declined by 10, whatever else the call is given.
    fn check_unsound(&mut self, sound: &RawState) -> Found {
        let state = self.unsound_from(sound);
        let n = state.plan.counts.n;
        for engine in Engine::BOTH {
            let budget = self.rng.pick(&[
                0,
                1,
                LISTING_BUDGET,
                LARGEST_BUDGET,
                LARGEST_BUDGET + 1,
                u64::MAX,
            ]);
            let length = self
                .rng
                .pick(&[0, EVENT_BYTES - 1, EVENT_BYTES, INSTANT_BYTES, 1_000]);
            let mut buffer = MarkedBuffer::new(length);
            let ran = self.simulator.run(engine, &state, budget, buffer.handed());
            let figures = (ran.number, ran.status, ran.integrator, ran.written);
            same("run", figures, (REFUSED_UNSOUND, 0, 0, 0))?;
            same("byte changed", buffer.changed_outside(0), None)?;
            same("state of a run given back", ran.state == state, true)?;
        }
        for integrator in [0, n.wrapping_sub(1), n, usize::MAX] {
            let positioned = self.simulator.position(&state, integrator);
            let figures = (positioned.number, positioned.value);
            same("position", figures, (REFUSED_UNSOUND, 0))?;
            let given_back = positioned.state == state;
            same("state of a position given back", given_back, true)?;
        }
        let mut buffer = MarkedBuffer::new(self.rng.pick(&[0, 51, 5_000]));
        let written = self.simulator.write(&state, buffer.handed());
        same(
            "write",
            (written.number, written.length),
            (REFUSED_UNSOUND, 0),
        )?;
        same("byte changed by write", buffer.changed_outside(0), None)?;
        Ok(())
    }

    /// One clause broken, or fields changed until one is.
    fn unsound_from(&mut self, sound: &RawState) -> RawState {
        let breakage = self.rng.pick(&Breakage::ALL);
        let broken = match self.rng.once_in(2) {
            true => breakage.apply(&mut self.rng, sound),
            false => None,
        };
        let mut state = broken.map_or_else(|| sound.clone(), |(state, _)| state);
        while is_sound(&state) {
            change_fields(&mut self.rng, &mut state);
        }
        state
    }

    /// A short list from a sound state of any plan, which most often no run leads to.
    fn check_other_list(&mut self) -> Found {
        let rng = &mut self.rng;
        let plan = plans::any(rng);
        let state = rng.pick(&Fill::ALL).state(rng, &plan);
        let list = run_list(rng, plan.events_per_instant());
        let short = |call: &Call| call.budget <= OTHER_BUDGET || call.budget > LARGEST_BUDGET;
        let list: Vec<Call> = list.into_iter().filter(short).take(OTHER_CALLS).collect();
        continued_list(self.simulator, &plan, &state, &list, &mut Met::default())
    }
}
