//! Mutants of the proved runs and of the proved position call: each is wrong in one way, among them those
//! that document 01 lists as breaking the agreement.

use cup_bridge::campaign::ProvedCalls;
use cup_check::calls::{Loaded, Positioned, Ran, SecondSimulator, Simulator, Written};
use cup_check::engine::{self, Engine};
use cup_check::generate::states::moved_to_clock;
use cup_check::limits::{
    ACCEPTED, EVENT_BYTES, FINISHED, LARGEST_BUDGET, PAUSED, RANGE, REFUSED_BUDGET,
    REFUSED_INTEGRATOR_NUMBER, REFUSED_RUN_BUFFER, REFUSED_UNSOUND,
};
use cup_check::raw::RawState;
use std::cell::Cell;

/// What is wrong.
#[derive(Clone, Copy, Debug, PartialEq, Eq)]
pub enum Mutant {
    /// Nothing, to see that the wrapper itself adds no difference.
    Nothing,
    FinishedBeforehand,
    RangeBeforehand,
    StateUntouched,
    StatusBeforeRun,
    RangeWithoutIntegrator,
    IntegratorOfFinished,
    EagerUnderLazy,
    LazyUnderEager,
    OnlyFirstInstant,
    ReachedInFirstInstantOnly,
    LastInstantLeftOut,
    OneInstantTooMany,
    ZeroBudgetTakesOne,
    ZeroBudgetIsPaused,
    InventedCount,
    CountOfEagerRuns,
    CountOfLastInstant,
    InstantsOfBudget,
    ClockRunsOn,
    PositionsMovedToClock,
    UnmovedStoredForTickBefore,
    EventsFromStartEachInstant,
    EventsOfLastInstantLost,
    WrittenIsBufferLength,
    LaterBytesCleared,
    OneByteBehindWritten,
    BudgetOneAboveAccepted,
    LargestBudgetDeclined,
    BudgetIn32Bits,
    OneByteShortAccepted,
    ExactBufferDeclined,
    BufferOfIntegratorsAlone,
    ShortBeforeBudget,
    BudgetBeforeUnsound,
    UnsoundAccepted,
    DeclineWrites,
    DeclineKeepsStatus,
    DeclineGivesIdle,
    DeclineForgetsUpdates,
    DisturbedByUnsound,
    StoredPosition,
    PositionAtNextTick,
    PositionIsOutput,
    PositionOfNeighbour,
    PositionOfN,
    PositionIn32Bits,
    PositionDeclinesLast,
    PositionOfUnsound,
    IntegratorNumberBeforeUnsound,
    PositionLeavesValue,
    PositionMovesState,
}

/// Mutants of a run.
pub const RUNS: [Mutant; 40] = [
    Mutant::FinishedBeforehand,
    Mutant::RangeBeforehand,
    Mutant::StateUntouched,
    Mutant::StatusBeforeRun,
    Mutant::RangeWithoutIntegrator,
    Mutant::IntegratorOfFinished,
    Mutant::EagerUnderLazy,
    Mutant::LazyUnderEager,
    Mutant::OnlyFirstInstant,
    Mutant::ReachedInFirstInstantOnly,
    Mutant::LastInstantLeftOut,
    Mutant::OneInstantTooMany,
    Mutant::ZeroBudgetTakesOne,
    Mutant::ZeroBudgetIsPaused,
    Mutant::InventedCount,
    Mutant::CountOfEagerRuns,
    Mutant::CountOfLastInstant,
    Mutant::InstantsOfBudget,
    Mutant::ClockRunsOn,
    Mutant::PositionsMovedToClock,
    Mutant::UnmovedStoredForTickBefore,
    Mutant::EventsFromStartEachInstant,
    Mutant::EventsOfLastInstantLost,
    Mutant::WrittenIsBufferLength,
    Mutant::LaterBytesCleared,
    Mutant::OneByteBehindWritten,
    Mutant::BudgetOneAboveAccepted,
    Mutant::LargestBudgetDeclined,
    Mutant::BudgetIn32Bits,
    Mutant::OneByteShortAccepted,
    Mutant::ExactBufferDeclined,
    Mutant::BufferOfIntegratorsAlone,
    Mutant::ShortBeforeBudget,
    Mutant::BudgetBeforeUnsound,
    Mutant::UnsoundAccepted,
    Mutant::DeclineWrites,
    Mutant::DeclineKeepsStatus,
    Mutant::DeclineGivesIdle,
    Mutant::DeclineForgetsUpdates,
    Mutant::DisturbedByUnsound,
];

/// Mutants of the position call.
pub const POSITIONS: [Mutant; 11] = [
    Mutant::StoredPosition,
    Mutant::PositionAtNextTick,
    Mutant::PositionIsOutput,
    Mutant::PositionOfNeighbour,
    Mutant::PositionOfN,
    Mutant::PositionIn32Bits,
    Mutant::PositionDeclinesLast,
    Mutant::PositionOfUnsound,
    Mutant::IntegratorNumberBeforeUnsound,
    Mutant::PositionLeavesValue,
    Mutant::PositionMovesState,
];

/// The proved calls as a mutant has them.
pub struct MutantCalls {
    mutant: Mutant,
    /// Whether the last run was handed an unsound state.
    after_unsound: Cell<bool>,
}

impl MutantCalls {
    pub fn new(mutant: Mutant) -> MutantCalls {
        let after_unsound = Cell::new(false);
        MutantCalls {
            mutant,
            after_unsound,
        }
    }

    /// The engine and the budget that are run instead of those asked for; the buffer is long enough for
    /// `fitting` instants.
    fn instead(&self, engine: Engine, budget: u64, fitting: u64) -> (Engine, u64) {
        let accepted = budget <= LARGEST_BUDGET && budget <= fitting;
        let budget = match self.mutant {
            Mutant::OnlyFirstInstant if accepted => budget.min(1),
            Mutant::LastInstantLeftOut if accepted => budget.saturating_sub(1),
            Mutant::OneInstantTooMany if budget < fitting.min(LARGEST_BUDGET) => budget + 1,
            Mutant::ZeroBudgetTakesOne if fitting > 0 => budget.max(1),
            Mutant::BudgetIn32Bits => u64::from(budget as u32),
            Mutant::BudgetOneAboveAccepted if budget == LARGEST_BUDGET + 1 && fitting >= budget => {
                LARGEST_BUDGET
            }
            _ => budget,
        };
        match self.mutant {
            Mutant::EagerUnderLazy => (Engine::Eager, budget),
            Mutant::LazyUnderEager => (Engine::Lazy, budget),
            _ => (engine, budget),
        }
    }

    /// The answer of an accepted run as the mutant has it.
    fn mutate_accepted(&self, asked: &Asked, ran: &mut Ran, buffer: &mut [u8]) {
        let (before, buffer_length) = (asked.state, buffer.len());
        let n = before.plan.counts.n;
        let taken = ran.state.run.clocks.instants - before.run.clocks.instants;
        let asks = (asked.budget as usize).saturating_mul(asked.instant_bytes());
        match self.mutant {
            Mutant::FinishedBeforehand => *ran = beforehand(before, FINISHED),
            Mutant::RangeBeforehand => *ran = beforehand(before, RANGE),
            Mutant::StateUntouched => ran.state = before.clone(),
            Mutant::StatusBeforeRun => {
                let at_start = ProvedCalls.run(asked.engine, before, 0, &mut []);
                (ran.status, ran.integrator) = (at_start.status, at_start.integrator);
            }
            Mutant::RangeWithoutIntegrator => ran.integrator = 0,
            Mutant::IntegratorOfFinished if ran.status == FINISHED => ran.integrator = n - 1,
            Mutant::ZeroBudgetIsPaused if asked.budget == 0 => {
                (ran.status, ran.integrator) = (PAUSED, 0)
            }
            Mutant::WrittenIsBufferLength => ran.written = buffer_length,
            Mutant::LaterBytesCleared => buffer[ran.written..].fill(0),
            Mutant::OneByteBehindWritten if ran.written < buffer_length => buffer[ran.written] ^= 1,
            Mutant::EventsOfLastInstantLost if taken > 1 => ran.written -= EVENT_BYTES,
            Mutant::EventsFromStartEachInstant if ran.written > EVENT_BYTES => {
                let last = ran.written - EVENT_BYTES..ran.written;
                buffer.copy_within(last, 0);
            }
            Mutant::LargestBudgetDeclined if asked.budget == LARGEST_BUDGET => {
                *ran = decline(before, REFUSED_BUDGET)
            }
            Mutant::ExactBufferDeclined if asks > 0 && buffer_length == asks => {
                *ran = decline(before, REFUSED_RUN_BUFFER)
            }
            _ => self.mutate_state(asked, &mut ran.state),
        }
    }

    /// The state that an accepted run returns, as the mutant has it.
    fn mutate_state(&self, asked: &Asked, state: &mut RawState) {
        let (before, n) = (asked.state, state.plan.counts.n);
        let run = &mut state.run;
        let (former, clocks) = (before.run.clocks, &mut run.clocks);
        let taken = clocks.instants - former.instants;
        match self.mutant {
            Mutant::InventedCount => clocks.updates = clocks.instants,
            Mutant::CountOfEagerRuns => clocks.updates = former.updates + taken * n as u64,
            Mutant::CountOfLastInstant if taken > 0 => {
                let moved = run.l[..n].iter().filter(|&&l| l == clocks.clock).count();
                clocks.updates = former.updates + moved as u64;
            }
            Mutant::InstantsOfBudget => clocks.instants = former.instants + asked.budget,
            Mutant::ClockRunsOn if taken < asked.budget => clocks.clock = state.plan.horizon,
            Mutant::PositionsMovedToClock => *state = moved_to_clock(state),
            // x and l for the tick before the clock: neither positions nor l = c tell it.
            Mutant::UnmovedStoredForTickBefore if taken > 0 => {
                let (last, after_l) = (clocks.clock - 1, run.l);
                for i in (0..n).filter(|&i| after_l[i] <= last) {
                    run.x[i] += run.s[i] * i64::from(last - run.l[i]);
                    run.l[i] = last;
                }
            }
            _ => (),
        }
    }

    /// The answer of a declined run as the mutant has it.
    fn mutate_declined(&self, asked: &Asked, ran: &mut Ran, buffer: &mut [u8]) {
        let (before, number) = (asked.state, ran.number);
        let empty = buffer.is_empty();
        match self.mutant {
            Mutant::OneByteShortAccepted if number == REFUSED_RUN_BUFFER => {
                let mut longer = [buffer, &[0][..]].concat();
                *ran = ProvedCalls.run(asked.engine, before, asked.budget, &mut longer);
            }
            Mutant::BufferOfIntegratorsAlone if number == REFUSED_RUN_BUFFER => {
                let needed = asked.budget as usize * before.plan.counts.n * EVENT_BYTES;
                if buffer.len() >= needed {
                    let mut longer = vec![0; asked.budget as usize * asked.instant_bytes()];
                    *ran = ProvedCalls.run(asked.engine, before, asked.budget, &mut longer);
                }
            }
            Mutant::ShortBeforeBudget if number == REFUSED_BUDGET => {
                ran.number = REFUSED_RUN_BUFFER
            }
            Mutant::BudgetBeforeUnsound
                if number == REFUSED_UNSOUND && asked.budget > LARGEST_BUDGET =>
            {
                ran.number = REFUSED_BUDGET;
            }
            Mutant::UnsoundAccepted if number == REFUSED_UNSOUND => ran.number = ACCEPTED,
            Mutant::DeclineWrites if !empty => buffer[0] ^= 1,
            Mutant::DeclineKeepsStatus => ran.status = FINISHED,
            Mutant::DeclineGivesIdle => ran.state = RawState::idle(),
            Mutant::DeclineForgetsUpdates => ran.state.run.clocks.updates = 0,
            _ => (),
        }
    }
}

/// What a run is asked.
struct Asked<'a> {
    state: &'a RawState,
    engine: Engine,
    budget: u64,
}

impl Asked<'_> {
    /// The bytes of an instant; of an unsound state whatever its counts say.
    fn instant_bytes(&self) -> usize {
        let counts = self.state.plan.counts;
        let events = counts.n.wrapping_add(counts.m);
        events.wrapping_mul(EVENT_BYTES).max(1)
    }
}

/// A status that is answered before anything is done.
fn beforehand(state: &RawState, status: usize) -> Ran {
    Ran {
        status,
        ..decline(state, ACCEPTED)
    }
}

fn decline(state: &RawState, number: usize) -> Ran {
    Ran {
        number,
        status: 0,
        integrator: 0,
        written: 0,
        state: state.clone(),
    }
}

/// The first instant as it should be, the others by an engine that moves only the due.
fn reached_once(asked: &Asked, buffer: &mut [u8]) -> Ran {
    let first = ProvedCalls.run(asked.engine, asked.state, 1, buffer);
    let mutant = engine::Mutant::OnlyDueMoved;
    let rest = &mut buffer[first.written..];
    let ran = SecondSimulator { mutant }.run(asked.engine, &first.state, asked.budget - 1, rest);
    let written = first.written + ran.written;
    Ran { written, ..ran }
}

impl Simulator for MutantCalls {
    fn load(&self, file: &[u8]) -> Loaded {
        Simulator::load(&ProvedCalls, file)
    }

    fn section<'f>(&self, file: &'f [u8], number: usize) -> &'f [u8] {
        Simulator::section(&ProvedCalls, file, number)
    }

    fn write(&self, state: &RawState, buffer: &mut [u8]) -> Written {
        Simulator::write(&ProvedCalls, state, buffer)
    }

    fn run(&self, engine: Engine, state: &RawState, budget: u64, buffer: &mut [u8]) -> Ran {
        let asked = Asked {
            state,
            engine,
            budget,
        };
        let fitting = (buffer.len() / asked.instant_bytes()) as u64;
        let (engine, budget) = self.instead(engine, budget, fitting);
        let mut ran = ProvedCalls.run(engine, state, budget, buffer);
        if self.mutant == Mutant::ReachedInFirstInstantOnly && ran.number == ACCEPTED && budget > 1
        {
            return reached_once(&asked, buffer);
        }
        match ran.number {
            ACCEPTED => self.mutate_accepted(&asked, &mut ran, buffer),
            _ => self.mutate_declined(&asked, &mut ran, buffer),
        }
        let disturbed = self.after_unsound.replace(ran.number == REFUSED_UNSOUND);
        if disturbed && self.mutant == Mutant::DisturbedByUnsound && ran.number == ACCEPTED {
            ran.state.run.clocks.updates = 0;
        }
        ran
    }

    fn position(&self, state: &RawState, integrator: usize) -> Positioned {
        let asked = match self.mutant {
            Mutant::PositionIn32Bits => integrator as u32 as usize,
            _ => integrator,
        };
        let mut answer = ProvedCalls.position(state, asked);
        let (run, n, i) = (&state.run, state.plan.counts.n, integrator);
        match (self.mutant, answer.number) {
            (Mutant::StoredPosition, ACCEPTED) => answer.value = run.x[i],
            (Mutant::PositionAtNextTick, ACCEPTED) => answer.value += run.s[i],
            (Mutant::PositionIsOutput, ACCEPTED) => answer.value = run.q[i],
            (Mutant::PositionOfNeighbour, ACCEPTED) => {
                answer.value = ProvedCalls.position(state, (i + 1) % n).value;
            }
            (Mutant::PositionDeclinesLast, ACCEPTED) if i + 1 == n => {
                answer = no_such_integrator(state)
            }
            (Mutant::PositionMovesState, ACCEPTED) => answer.state = moved_to_clock(state),
            (Mutant::PositionOfN, REFUSED_INTEGRATOR_NUMBER) if i == n => answer.number = ACCEPTED,
            (Mutant::PositionLeavesValue, REFUSED_INTEGRATOR_NUMBER) => answer.value = run.x[0],
            (Mutant::PositionOfUnsound, REFUSED_UNSOUND) => answer.number = ACCEPTED,
            (Mutant::IntegratorNumberBeforeUnsound, REFUSED_UNSOUND) if i >= n => {
                answer.number = REFUSED_INTEGRATOR_NUMBER
            }
            _ => (),
        }
        answer
    }
}

fn no_such_integrator(state: &RawState) -> Positioned {
    Positioned {
        number: REFUSED_INTEGRATOR_NUMBER,
        value: 0,
        state: state.clone(),
    }
}
