//! Mutants of the calls, among them those that document 01 lists as breaking the agreement: the comparison
//! has to find every one of them.

mod common;

use common::{first_difference, SIMULATOR};
use cup_check::calls::{Loaded, Positioned, Ran, Simulator, Written};
use cup_check::engine::Engine;
use cup_check::limits::{ACCEPTED, EVENT_BYTES, FINISHED, LARGEST_BUDGET, RANGE};
use cup_check::raw::RawState;

/// What is wrong.
#[derive(Clone, Copy, Debug, PartialEq)]
enum Mutant {
    LoaderDeclinesAll,
    LoaderGivesIdle,
    ViewIsEmpty,
    EmptyViewAtTheStart,
    WriterWritesNothing,
    WriterClearsLaterBytes,
    EagerBodyUnderLazy,
    LazyBodyUnderEager,
    OnlyFirstInstant,
    OneInstantTooMany,
    FinishedBeforehand,
    RangeBeforehand,
    StateUntouched,
    InventedCount,
    StatusBeforeRun,
    LaterByteChanged,
    DeclineChangesBuffer,
    DeclineChangesState,
    BudgetNotTested,
    BufferNotTested,
    PositionStored,
    ClockRunsOn,
}

const MUTANTS: [Mutant; 22] = [
    Mutant::LoaderDeclinesAll,
    Mutant::LoaderGivesIdle,
    Mutant::ViewIsEmpty,
    Mutant::EmptyViewAtTheStart,
    Mutant::WriterWritesNothing,
    Mutant::WriterClearsLaterBytes,
    Mutant::EagerBodyUnderLazy,
    Mutant::LazyBodyUnderEager,
    Mutant::OnlyFirstInstant,
    Mutant::OneInstantTooMany,
    Mutant::FinishedBeforehand,
    Mutant::RangeBeforehand,
    Mutant::StateUntouched,
    Mutant::InventedCount,
    Mutant::StatusBeforeRun,
    Mutant::LaterByteChanged,
    Mutant::DeclineChangesBuffer,
    Mutant::DeclineChangesState,
    Mutant::BudgetNotTested,
    Mutant::BufferNotTested,
    Mutant::PositionStored,
    Mutant::ClockRunsOn,
];

/// The second simulator's calls as a mutant has them.
struct MutantCalls(Mutant);

impl MutantCalls {
    /// What is handed to the second simulator's run instead of the engine and budget asked for.
    fn instead(
        &self,
        engine: Engine,
        budget: u64,
        length: usize,
        instant_bytes: usize,
    ) -> (Engine, u64) {
        let fitting = (length / instant_bytes) as u64;
        match self.0 {
            Mutant::EagerBodyUnderLazy => (Engine::Eager, budget),
            Mutant::LazyBodyUnderEager => (Engine::Lazy, budget),
            Mutant::OnlyFirstInstant if budget <= LARGEST_BUDGET => (engine, budget.min(1)),
            Mutant::OneInstantTooMany if budget < fitting.min(LARGEST_BUDGET) => {
                (engine, budget + 1)
            }
            Mutant::BudgetNotTested => (engine, budget.min(LARGEST_BUDGET)),
            Mutant::BufferNotTested if budget <= LARGEST_BUDGET => (engine, budget.min(fitting)),
            _ => (engine, budget),
        }
    }

    /// The answer of an accepted run as the mutant has it.
    fn mutate_accepted(&self, before: &RawState, ran: &mut Ran, buffer: &mut [u8]) {
        let clocks = &mut ran.state.run.clocks;
        match self.0 {
            Mutant::FinishedBeforehand => ran.status = FINISHED,
            Mutant::RangeBeforehand => ran.status = RANGE,
            Mutant::StateUntouched => ran.state = before.clone(),
            Mutant::InventedCount => clocks.updates = clocks.instants,
            Mutant::StatusBeforeRun => {
                ran.status = SIMULATOR.run(Engine::Lazy, before, 0, &mut []).status
            }
            Mutant::LaterByteChanged if ran.written < buffer.len() => buffer[ran.written] ^= 1,
            Mutant::ClockRunsOn if ran.status == FINISHED => clocks.clock = before.plan.horizon,
            _ => {}
        }
    }

    /// The answer of a declined run as the mutant has it.
    fn mutate_declined(&self, ran: &mut Ran, buffer: &mut [u8]) {
        match self.0 {
            Mutant::DeclineChangesBuffer if !buffer.is_empty() => buffer[0] ^= 1,
            Mutant::DeclineChangesState => ran.state = RawState::idle(),
            _ => {}
        }
    }
}

impl Simulator for MutantCalls {
    fn load(&self, file: &[u8]) -> Loaded {
        match self.0 {
            Mutant::LoaderDeclinesAll => SIMULATOR.load(&[]),
            Mutant::LoaderGivesIdle => Loaded {
                state: RawState::idle(),
                ..SIMULATOR.load(file)
            },
            _ => SIMULATOR.load(file),
        }
    }

    fn section<'f>(&self, file: &'f [u8], number: usize) -> &'f [u8] {
        let part = SIMULATOR.section(file, number);
        match self.0 {
            Mutant::ViewIsEmpty => &file[..0],
            Mutant::EmptyViewAtTheStart if part.is_empty() => &file[..0],
            _ => part,
        }
    }

    fn write(&self, state: &RawState, buffer: &mut [u8]) -> Written {
        match self.0 {
            Mutant::WriterWritesNothing => SIMULATOR.write(state, &mut buffer.to_vec()),
            Mutant::WriterClearsLaterBytes => {
                let written = SIMULATOR.write(state, buffer);
                buffer[written.length..].fill(0);
                written
            }
            _ => SIMULATOR.write(state, buffer),
        }
    }

    fn run(&self, engine: Engine, state: &RawState, budget: u64, buffer: &mut [u8]) -> Ran {
        let instant_bytes = state.plan.counts.events_per_instant() * EVENT_BYTES;
        let (engine, budget) = self.instead(engine, budget, buffer.len(), instant_bytes);
        let mut ran = SIMULATOR.run(engine, state, budget, buffer);
        match ran.number {
            ACCEPTED => self.mutate_accepted(state, &mut ran, buffer),
            _ => self.mutate_declined(&mut ran, buffer),
        }
        ran
    }

    fn position(&self, state: &RawState, integrator: usize) -> Positioned {
        let mut answer = SIMULATOR.position(state, integrator);
        if self.0 == Mutant::PositionStored && answer.number == ACCEPTED {
            answer.value = state.run.x[integrator];
        }
        answer
    }
}

#[test]
fn every_mutant_of_the_calls_is_found() {
    for mutant in MUTANTS {
        let found = first_difference(&MutantCalls(mutant), 20);
        println!("{mutant:?}: {found:?}");
        assert!(found.is_some(), "{mutant:?} was not found");
    }
}
