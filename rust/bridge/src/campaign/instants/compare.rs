//! One state: its next instant by both engines, and what is declined.

use super::super::compare::random_bytes;
use super::super::Machine;
use super::counts::{count_answer, count_instant};
use crate::state::{Ran, State};
use cup_check::calls::{SecondSimulator, Simulator};
use cup_check::compare::{holds, moment_of, same, same_as_plain, Found};
use cup_check::engine::{Engine, Mutant};
use cup_check::generate::changes::change_fields;
use cup_check::generate::states::moved_to_clock;
use cup_check::generate::Rng;
use cup_check::limits::{ACCEPTED, EVENT_BYTES, REFUSED_RUN_BUFFER, REFUSED_UNSOUND};
use cup_check::met::Met;
use cup_check::plain::{Observer, Plain, TakenInstant};
use cup_check::plan::Plan;
use cup_check::raw::{RawRunning, RawState};
use cup_check::sound::is_sound;

/// Bytes before and behind a buffer that have to keep their value too.
const MARGIN: usize = 16;

/// Once in so many states, the state is also made unsound.
const UNSOUND_ONCE_IN: usize = 8;

/// Once in so many states, a buffer of any shorter length is tried as well.
const ANY_SHORTER_ONCE_IN: usize = 4;

/// Who is compared on what.
pub struct Comparison<'a> {
    pub machine: &'a dyn Machine,
    pub mutant: Mutant,
    pub plan: &'a Plan,
    pub state: &'a RawState,
}

/// The plain machine after its next instant, and that instant if there was one.
struct Next<'a> {
    plain: Plain<'a>,
    taken: Option<TakenInstant>,
}

impl<'a> Comparison<'a> {
    /// `Err` describes the first difference.
    pub fn check(&self, rng: &mut Rng, met: &mut Met) -> Found {
        let needed = self.plan.events_per_instant() * EVENT_BYTES;
        let next = self.next();
        for engine in Engine::BOTH {
            let at = |difference| format!("{engine:?}: {difference}");
            self.check_accepted(rng, met, engine, &next).map_err(at)?;
            self.check_short(rng, met, engine, needed).map_err(at)?;
        }
        if rng.once_in(UNSOUND_ONCE_IN) {
            self.check_unsound(rng, met, needed)?;
        }
        Ok(())
    }

    /// The plain machine from this state's moment on, after what instant it takes.
    fn next(&self) -> Next<'a> {
        let mut plain = Plain::continued(self.plan, moment_of(self.state));
        let mut taken = None;
        plain.run_observed(1, |instant| taken = Some(instant.clone()));
        Next { plain, taken }
    }

    fn check_accepted(&self, rng: &mut Rng, met: &mut Met, engine: Engine, next: &Next) -> Found {
        let needed = self.plan.events_per_instant() * EVENT_BYTES;
        let length = needed + rng.pick(&[0, 0, 1, 7, 30]);
        let (ran, bytes) = self.check_call(rng, engine, self.state, length)?;
        same("number", ran.number, ACCEPTED)?;
        let written = bytes
            .get(MARGIN..MARGIN + ran.written)
            .ok_or("more bytes than the buffer has")?;
        self.check_plain(met, engine, &ran, written, next)
    }

    /// Buffers one byte shorter than is asked, and sometimes of any shorter length.
    fn check_short(&self, rng: &mut Rng, met: &mut Met, engine: Engine, needed: usize) -> Found {
        let any = rng.once_in(ANY_SHORTER_ONCE_IN).then(|| rng.below(needed));
        for length in any.into_iter().chain([needed - 1]) {
            let (ran, _) = self.check_call(rng, engine, self.state, length)?;
            same("number of a short buffer", ran.number, REFUSED_RUN_BUFFER)?;
            met.count("buffer too short");
        }
        Ok(())
    }

    /// An unsound state is declined by 10, whatever the buffer.
    fn check_unsound(&self, rng: &mut Rng, met: &mut Met, needed: usize) -> Found {
        let mut state = self.state.clone();
        while is_sound(&state) {
            change_fields(rng, &mut state);
        }
        for (engine, length) in [(Engine::Lazy, needed), (Engine::Eager, 0)] {
            let (ran, _) = self.check_call(rng, engine, &state, length)?;
            same("number of an unsound state", ran.number, REFUSED_UNSOUND)?;
            met.count("not sound");
        }
        Ok(())
    }

    /// Number, status, integrator, bytes written, every field of the state and every byte of the
    /// buffer, and around it, as by the second simulator's engine. Answers what was answered.
    fn check_call(
        &self,
        rng: &mut Rng,
        engine: Engine,
        state: &RawState,
        length: usize,
    ) -> Result<(Box<Ran>, Vec<u8>), String> {
        let mut bytes = random_bytes(rng, length + 2 * MARGIN);
        let mut right = bytes.clone();
        let buffer = MARGIN..MARGIN + length;
        let handed = State::from(state);
        let ran = self
            .machine
            .instant(engine, &handed, &mut bytes[buffer.clone()]);
        let second = SecondSimulator {
            mutant: self.mutant,
        };
        let expected = second.run(engine, state, 1, &mut right[buffer]);
        same(
            "number, status, integrator, written",
            (ran.number, ran.status, ran.integrator, ran.written),
            (
                expected.number,
                expected.status,
                expected.integrator,
                expected.written,
            ),
        )?;
        let differences = State::from(&expected.state).differences(&ran.state);
        same("state", differences, Vec::new())?;
        let wrong = (0..right.len()).find(|&place| bytes[place] != right[place]);
        let wrong = wrong.map(|place| place as i64 - MARGIN as i64);
        same("first wrong byte of the buffer", wrong, None)?;
        Ok((ran, bytes))
    }

    /// The same instant by the plain machine, and by its observer who is moved.
    fn check_plain(
        &self,
        met: &mut Met,
        engine: Engine,
        ran: &Ran,
        written: &[u8],
        next: &Next,
    ) -> Found {
        let (before, plain) = (self.state, &next.plain);
        let after = RawState::from(&ran.state);
        same_as_plain(&after, plain)?;
        let status = plain.status();
        let answered = (ran.status, ran.integrator);
        let expected = (status.number(), status.integrator());
        same("status of the plain machine", answered, expected)?;
        same("events", written, &plain.event_bytes()[..])?;
        let positions = &moved_to_clock(&after).run.x[..before.plan.counts.n];
        same("positions", positions, &plain.positions[..])?;
        holds("the plan changed", after.plan == before.plan)?;
        count_answer(met, engine, before, plain);
        match &next.taken {
            None => holds("no instant, but another state", after == *before),
            Some(taken) => self.check_moved(met, engine, taken, &after),
        }
    }

    /// Who is moved has l = c, and its stored position is the one at the clock; who is not keeps
    /// all figures.
    fn check_moved(
        &self,
        met: &mut Met,
        engine: Engine,
        taken: &TakenInstant,
        after: &RawState,
    ) -> Found {
        let moved = Observer::of(self.plan).moved(engine, taken);
        let (before, after) = (&self.state.run, &after.run);
        let grown = after.clocks.updates.wrapping_sub(before.clocks.updates);
        same("growth of updates", grown, moved.len() as u64)?;
        for i in 0..self.plan.integrators.len() {
            if moved.contains(&i) {
                same("l of a moved integrator", after.l[i], after.clocks.clock)?;
            } else {
                let figures = |run: &RawRunning| (run.x[i], run.q[i], run.s[i], run.l[i], run.d[i]);
                same("who is not moved", figures(after), figures(before))?;
            }
        }
        count_instant(met, taken, moved.len(), engine, self.plan);
        Ok(())
    }
}
