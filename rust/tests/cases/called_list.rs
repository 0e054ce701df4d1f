//! Lists of run calls, and what this simulator makes of them.

use crate::common::{MARK, SIMULATOR};
use cup_check::calls::{Ran, Simulator};
use cup_check::engine::Engine;
use cup_check::generate::{Call, Rng};
use cup_check::limits::{ACCEPTED, EVENT_BYTES, LARGEST_BUDGET};
use cup_check::plan::Plan;
use cup_check::raw::RawState;

/// A list of calls by either engine: two that are accepted, the first sometimes with budget 0, and
/// between them one whose budget or whose buffer is declined.
pub fn short_list(rng: &mut Rng, plan: &Plan) -> Vec<Call> {
    let instant_bytes = plan.events_per_instant() * EVENT_BYTES;
    let (first, last) = (rng.below(5), rng.below(4) + 4);
    let declined = rng.pick(&[(LARGEST_BUDGET as usize + 1, 0), (2, 2 * instant_bytes - 1)]);
    let figures = [
        (first, first * instant_bytes + rng.below(3)),
        declined,
        (last, last * instant_bytes),
    ];
    let call = |(budget, buffer): (usize, usize)| Call {
        engine: rng.pick(&Engine::BOTH),
        budget: budget as u64,
        buffer,
    };
    figures.map(call).to_vec()
}

/// A list of calls and what came of it.
pub struct CalledList {
    pub list: Vec<Call>,
    /// The state before each call, and the one after the last.
    pub states: Vec<RawState>,
    /// What each call answered, and its buffer then.
    pub answers: Vec<(Ran, Vec<u8>)>,
}

impl CalledList {
    pub fn of(start: &RawState, list: Vec<Call>) -> CalledList {
        let mut states = vec![start.clone()];
        let mut answers = Vec::new();
        for call in &list {
            let mut buffer = vec![MARK; call.buffer];
            let state = &states[answers.len()];
            let ran = SIMULATOR.run(call.engine, state, call.budget, &mut buffer);
            states.push(ran.state.clone());
            answers.push((ran, buffer));
        }
        CalledList {
            list,
            states,
            answers,
        }
    }

    pub fn start(&self) -> &RawState {
        &self.states[0]
    }

    pub fn end(&self) -> &RawState {
        &self.states[self.list.len()]
    }

    /// What each call feeds the plain machine.
    pub fn fed(&self) -> Vec<u64> {
        let calls = self.list.iter().zip(&self.answers);
        calls
            .map(|(call, (ran, _))| match ran.number {
                ACCEPTED => call.budget,
                _ => 0,
            })
            .collect()
    }

    /// The accepted budgets added up.
    pub fn sum(&self) -> u64 {
        self.fed().iter().sum()
    }

    /// "The bytes that accepted calls answer as written, joined in call order."
    pub fn joined(&self) -> Vec<u8> {
        let written = |(ran, buffer): &(Ran, Vec<u8>)| buffer[..ran.written].to_vec();
        self.answers.iter().flat_map(written).collect()
    }

    /// The list up to an instant that its accepted budgets reach, and what is left of it: the call
    /// that the instant belongs to is cut in two.
    pub fn cut_at(&self, instant: u64) -> [Vec<Call>; 2] {
        let mut left = instant;
        for (number, fed) in self.fed().into_iter().enumerate() {
            if left <= fed {
                let part = |budget| Call {
                    budget,
                    ..self.list[number]
                };
                let (front, back) = (part(left), part(fed - left));
                return [
                    [&self.list[..number], &[front]].concat(),
                    [&[back], &self.list[number + 1..]].concat(),
                ];
            }
            left -= fed;
        }
        panic!("instant {instant} is beyond the accepted budgets");
    }
}
