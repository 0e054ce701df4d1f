//! One list of run calls against one plain machine.

use super::buffer::MarkedBuffer;
use super::counts::{count_accepted, count_events, count_instant, count_lazy, count_list};
use super::state::{moment_of, same_as_plain};
use super::{holds, same, same_events, Called, Found, Hook};
use crate::calls::{Ran, Simulator};
use crate::engine::Engine;
use crate::file::encode;
use crate::file::encoding::section_bytes;
use crate::file::read::place_in;
use crate::generate::Call;
use crate::limits::{ACCEPTED, REFUSED_BUDGET, REFUSED_INTEGRATOR_NUMBER, REFUSED_RUN_BUFFER};
use crate::limits::{EVENT_BYTES, HEADER_BYTES, INTEGRATORS, LARGEST_BUDGET, SECTIONS};
use crate::met::Met;
use crate::plain::{Event, Observer, Plain};
use crate::plan::Plan;
use crate::raw::RawState;
use crate::sound::broken_clauses;
use std::collections::BTreeSet;

/// Integrator numbers that no plan has, among them those that are low ones if cut to 8, 16 or 32 bits.
const WILD: [usize; 6] = [INTEGRATORS, 1 << 8, 1 << 16, 1 << 32, 1 << 63, usize::MAX];

/// Loads an accepted plan's file, views its sections, runs the list from the loaded state and writes
/// the plan again.
pub fn loaded_list(simulator: &dyn Simulator, plan: &Plan, list: &[Call], met: &mut Met) -> Found {
    loaded_list_with_hook(simulator, plan, list, met, &mut ())
}

/// The same, with what else is compared after each call.
pub fn loaded_list_with_hook(
    simulator: &dyn Simulator,
    plan: &Plan,
    list: &[Call],
    met: &mut Met,
    hook: &mut dyn Hook,
) -> Found {
    let file = encode(plan);
    let loaded = simulator.load(&file);
    same("load", (loaded.number, loaded.entry), (ACCEPTED, 0))?;
    same("updates at the start", loaded.state.run.clocks.updates, 0)?;
    check_sections(simulator, plan, &file)?;
    let start = Plain::start(plan);
    let last = compare_list(simulator, start, loaded.state, list, met, hook)?;
    check_written(simulator, &last, &file)
}

/// Runs the list from a sound state that was filled by hand.
pub fn continued_list(
    simulator: &dyn Simulator,
    plan: &Plan,
    state: &RawState,
    list: &[Call],
    met: &mut Met,
) -> Found {
    continued_list_with_hook(simulator, plan, state, list, met, &mut ())
}

/// The same, with what else is compared after each call.
pub fn continued_list_with_hook(
    simulator: &dyn Simulator,
    plan: &Plan,
    state: &RawState,
    list: &[Call],
    met: &mut Met,
    hook: &mut dyn Hook,
) -> Found {
    let start = Plain::continued(plan, moment_of(state));
    let last = compare_list(simulator, start, state.clone(), list, met, hook)?;
    check_written(simulator, &last, &encode(plan))
}

/// Both from their first state through all calls; answers the state that the last call returned.
fn compare_list(
    simulator: &dyn Simulator,
    start: Plain,
    state: RawState,
    list: &[Call],
    met: &mut Met,
    hook: &mut dyn Hook,
) -> Result<RawState, String> {
    let mut comparison = Comparison {
        simulator,
        observer: Observer::of(start.plan),
        plain: start.clone(),
        state,
        joined: Vec::new(),
        budget_sum: 0,
        met,
    };
    comparison.check_state()?;
    for (number, call) in list.iter().enumerate() {
        let at = |difference| format!("call {number} ({call:?}): {difference}");
        comparison.check_call(call, hook).map_err(at)?;
    }
    comparison.check_whole_list(start)?;
    Ok(comparison.state)
}

/// The section view shows each section at its place, and nothing for a number above 4.
fn check_sections(simulator: &dyn Simulator, plan: &Plan, file: &[u8]) -> Found {
    let mut offset = HEADER_BYTES;
    for (number, expected) in section_bytes(plan).iter().enumerate() {
        let part = simulator.section(file, number);
        same("section", part, &expected[..])?;
        same("a section's offset", place_in(file, part), offset)?;
        offset += expected.len();
    }
    same("section 5", simulator.section(file, SECTIONS), &[])
}

/// The writer gives the plan's file back from whatever state the runs have reached.
fn check_written(simulator: &dyn Simulator, state: &RawState, file: &[u8]) -> Found {
    let mut buffer = MarkedBuffer::new(file.len() + 5);
    let written = simulator.write(state, buffer.handed());
    same(
        "write",
        (written.number, written.length),
        (ACCEPTED, file.len()),
    )?;
    same("written plan", buffer.first(file.len()), Some(file))?;
    same("byte changed", buffer.changed_outside(file.len()), None)?;
    holds("write changed the state", written.state == *state)
}

struct Comparison<'a> {
    simulator: &'a dyn Simulator,
    observer: Observer,
    plain: Plain<'a>,
    state: RawState,
    joined: Vec<u8>,
    budget_sum: u128,
    met: &'a mut Met,
}

impl Comparison<'_> {
    fn check_call(&mut self, call: &Call, hook: &mut dyn Hook) -> Found {
        let mut buffer = MarkedBuffer::new(call.buffer);
        let ran = self
            .simulator
            .run(call.engine, &self.state, call.budget, buffer.handed());
        let instants_before = self.plain.instants;
        match self.expected_decline(call) {
            ACCEPTED => self.check_accepted(call, &ran, &buffer)?,
            number => self.check_declined(number, &ran, &buffer)?,
        }
        let before = std::mem::replace(&mut self.state, ran.state.clone());
        if ran.number == ACCEPTED {
            self.check_state()?;
        }
        let called = Called {
            call,
            before: &before,
            ran: &ran,
            written: buffer.first(ran.written).unwrap_or_default(),
            instants: self.plain.instants - instants_before,
        };
        hook.after_call(&called, self.met)
    }

    /// In a list "a call is declined by 11 or 12 only".
    fn expected_decline(&mut self, call: &Call) -> usize {
        if call.budget > LARGEST_BUDGET {
            self.met.count("decline 11");
            return REFUSED_BUDGET;
        }
        let events = call.budget as usize * self.plain.plan.events_per_instant();
        if call.buffer < events * EVENT_BYTES {
            self.met.count("decline 12");
            return REFUSED_RUN_BUFFER;
        }
        ACCEPTED
    }

    fn check_declined(&self, number: usize, ran: &Ran, buffer: &MarkedBuffer) -> Found {
        same("number", ran.number, number)?;
        let figures = (ran.status, ran.integrator, ran.written);
        same("figures of a declined call", figures, (0, 0, 0))?;
        holds("a declined call changed the state", ran.state == self.state)?;
        same(
            "byte changed by a declined call",
            buffer.changed_outside(0),
            None,
        )
    }

    fn check_accepted(&mut self, call: &Call, ran: &Ran, buffer: &MarkedBuffer) -> Found {
        same("number", ran.number, ACCEPTED)?;
        let events_before = self.plain.events.len();
        let moves = self.run_plain(call);
        let status = self.plain.status();
        let answered = (ran.status, ran.integrator);
        same("status", answered, (status.number(), status.integrator()))?;
        self.check_events(ran, buffer, events_before)?;
        self.check_single_instants(call.engine, ran, buffer, &moves)?;
        self.check_counts(ran, &moves)?;
        count_accepted(self.met, call.engine, moves.len(), &self.plain);
        Ok(())
    }

    /// Feeds the plain machine one accepted budget; answers for each instant of the call which
    /// integrators it has to move.
    fn run_plain(&mut self, call: &Call) -> Vec<BTreeSet<usize>> {
        let plan = self.plain.plan;
        let mut moves = Vec::new();
        let (observer, met) = (&self.observer, &mut *self.met);
        self.plain.run_observed(u128::from(call.budget), |taken| {
            let lazily_moved = observer.moved(Engine::Lazy, taken);
            count_instant(met, taken, lazily_moved.len(), plan);
            moves.push(match call.engine {
                Engine::Lazy => {
                    count_lazy(met, lazily_moved.len(), plan);
                    lazily_moved
                }
                Engine::Eager => observer.moved(Engine::Eager, taken),
            });
        });
        self.budget_sum += u128::from(call.budget);
        moves
    }

    /// The bytes written are the plain machine's new events, and "later bytes keep their value".
    fn check_events(&mut self, ran: &Ran, buffer: &MarkedBuffer, events_before: usize) -> Found {
        let new_events = &self.plain.events[events_before..];
        count_events(self.met, new_events);
        let expected: Vec<u8> = new_events.iter().flat_map(Event::bytes).collect();
        same("bytes written", ran.written, expected.len())?;
        same_events(buffer.first(ran.written), &expected)?;
        same(
            "later byte changed",
            buffer.changed_outside(ran.written),
            None,
        )?;
        self.joined
            .extend_from_slice(buffer.first(ran.written).unwrap_or_default());
        Ok(())
    }

    /// The same call as single instants: at each, updates grow by the number of integrators that
    /// the observer names, and these have l = c after it; at the end state and bytes are those of
    /// the call.
    fn check_single_instants(
        &self,
        engine: Engine,
        ran: &Ran,
        buffer: &MarkedBuffer,
        moves: &[BTreeSet<usize>],
    ) -> Found {
        let mut state = self.state.clone();
        let mut joined = Vec::new();
        let mut instant_buffer = vec![0; self.plain.plan.events_per_instant() * EVENT_BYTES];
        for moved in moves {
            let step = self.simulator.run(engine, &state, 1, &mut instant_buffer);
            same("number of a single instant", step.number, ACCEPTED)?;
            let (before, after) = (state.run.clocks, step.state.run.clocks);
            let grown = after.updates.checked_sub(before.updates);
            same("growth of updates", grown, Some(moved.len() as u64))?;
            same(
                "integrators with l = c",
                &moved_at_clock(&step.state),
                moved,
            )?;
            joined.extend(instant_buffer.iter().take(step.written));
            state = step.state;
        }
        same_events(buffer.first(ran.written), &joined)
            .map_err(|difference| format!("joined single instants: {difference}"))?;
        holds("single instants lead to another state", state == ran.state)
    }

    /// Updates grow by all that was moved, the plan stays, and a run of no instant changes nothing.
    fn check_counts(&self, ran: &Ran, moves: &[BTreeSet<usize>]) -> Found {
        let moved: usize = moves.iter().map(BTreeSet::len).sum();
        let updates = self.state.run.clocks.updates + moved as u64;
        same("updates", ran.state.run.clocks.updates, updates)?;
        holds("the plan changed", ran.state.plan == self.state.plan)?;
        let unchanged = !moves.is_empty() || ran.state == self.state;
        holds("a run of no instant changed the state", unchanged)
    }

    /// What has to hold of the state between calls.
    fn check_state(&mut self) -> Found {
        same("broken clauses", broken_clauses(&self.state), Vec::new())?;
        same_as_plain(&self.state, &self.plain)?;
        for (i, &expected) in self.plain.positions.iter().enumerate() {
            let answer = self.simulator.position(&self.state, i);
            same(
                "position",
                (answer.number, answer.value),
                (ACCEPTED, expected),
            )?;
            holds("position changed the state", answer.state == self.state)?;
        }
        let n = self.state.plan.counts.n;
        for number in WILD.into_iter().chain([n, n + 1]) {
            let none = self.simulator.position(&self.state, number);
            let answered = (none.number, none.value);
            same("position of none", answered, (REFUSED_INTEGRATOR_NUMBER, 0))?;
            let kept = none.state == self.state;
            holds("position of none changed the state", kept)?;
            self.met.count("decline 14");
        }
        Ok(())
    }

    /// A machine fed the budget sum at once, and the joined bytes.
    fn check_whole_list(&mut self, start: Plain) -> Found {
        let before = start.instants;
        let mut whole = start;
        whole.run(self.budget_sum);
        holds("the budget sum leads elsewhere", whole == self.plain)?;
        count_list(self.met, whole.instants - before);
        holds("joined events", self.joined == whole.event_bytes())
    }
}

/// The integrators with l = c.
fn moved_at_clock(state: &RawState) -> BTreeSet<usize> {
    let moved = |&i: &usize| state.run.l[i] == state.run.clocks.clock;
    (0..state.plan.counts.n).filter(moved).collect()
}
