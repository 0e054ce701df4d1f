//! The campaigns over states can fail: they find every mutant of the second simulator's test of soundness
//! and of its engines, and every mutant of the calls.

use cup_bridge::campaign::{instants, soundness, starts, tables, writes, Machine, ProvedCalls};
use cup_bridge::state::{Loaded, Ran, State, Tables, Written};
use cup_check::engine::Engine;
use cup_check::limits::{
    ACCEPTED, EVENT_BYTES, FINISHED, HEADER_BYTES, INPUTS, INTEGRATORS, INTEGRATOR_BYTES, NEVER,
    PAUSED, REFUSED_COMMAND, REFUSED_RUN_BUFFER, REFUSED_UNSOUND, REFUSED_WRITE_BUFFER, SOURCES,
    WORD_BYTES,
};
use cup_check::{engine, sound};

/// States tried for each mutant of the test of soundness; most are found within the first hundreds.
const SOUNDNESS_STATES: u64 = 40_000;
/// States and files tried for each other mutant.
const OTHER_CASES: u64 = 2_000;
/// The bytes of the shortest plan's file.
const SHORTEST_FILE: usize = HEADER_BYTES + INTEGRATOR_BYTES;
/// Where the tried ones start from.
const SEED: u64 = 1;

/// The first difference between the proved test of soundness and the second simulator's.
fn difference_in_soundness(mutant: sound::Mutant) -> Option<String> {
    let campaign = soundness::Campaign {
        states: SOUNDNESS_STATES,
        seed: SEED,
        mutant,
    };
    campaign.run(&ProvedCalls).differences.into_iter().next()
}

#[test]
fn every_mutant_of_the_test_of_soundness_is_found() {
    for mutant in sound::Mutant::all() {
        let found = difference_in_soundness(mutant);
        println!("{mutant:?}: {found:?}");
        assert!(found.is_some(), "{mutant:?} was not found");
    }
    assert_eq!(difference_in_soundness(sound::Mutant::None), None);
}

#[test]
fn every_mutant_of_the_test_of_soundness_and_of_the_engines_has_a_name() {
    for mutant in sound::Mutant::all()
        .into_iter()
        .chain([sound::Mutant::None])
    {
        assert_eq!(sound::Mutant::named(&format!("{mutant:?}")), Some(mutant));
    }
    for mutant in engine::Mutant::ALL
        .into_iter()
        .chain([engine::Mutant::None])
    {
        assert_eq!(engine::Mutant::named(&format!("{mutant:?}")), Some(mutant));
    }
    let unknown = (sound::Mutant::named("none"), engine::Mutant::named("none"));
    assert_eq!(unknown, (None, None));
}

/// The first difference between a machine's instants and the second simulator's.
fn difference_in_instants(machine: &dyn Machine, mutant: engine::Mutant) -> Option<String> {
    let campaign = instants::Campaign {
        states: OTHER_CASES,
        seed: SEED,
        mutant,
    };
    campaign.run(machine).differences.into_iter().next()
}

#[test]
fn every_mutant_of_the_second_simulators_engines_is_found_by_single_instants() {
    for mutant in engine::Mutant::ALL {
        let found = difference_in_instants(&ProvedCalls, mutant);
        println!("{mutant:?}: {found:?}");
        assert!(found.is_some(), "{mutant:?} was not found");
    }
    assert_eq!(
        difference_in_instants(&ProvedCalls, engine::Mutant::None),
        None
    );
}

/// Mutants of the proved calls.
#[derive(Clone, Copy, Debug, PartialEq, Eq)]
enum Mutant {
    LoadsEntryZero,
    LoadsIdleAlways,
    LoadsPlanOfRefused,
    LoadsNothingDue,
    LoadsNeverAsZero,
    LoadsWithoutInputs,
    WritesWithoutLastByte,
    WritesBehind,
    WritesIntoShort,
    WritesOneByteShort,
    WritesShortBeforeUnsound,
    WritesLengthOfShort,
    WritesStateBackOtherwise,
    InstantCountsDueTwice,
    InstantSkipsLowest,
    InstantSkipsThirtyTwo,
    InstantEventsDescend,
    InstantInputWithoutN,
    InstantWritesBehind,
    InstantWritesIntoShort,
    InstantOneByteShort,
    InstantShortBeforeUnsound,
    InstantStatusBefore,
    InstantIntegratorAlways,
    InstantWrittenIsBufferLength,
    InstantNotCounted,
    InstantCommandsStay,
    InstantClockRunsOn,
    InstantEagerForLazy,
    InstantLazyForEager,
    InstantUnusedTouched,
    TablesWithoutEnd,
    TablesInnerRange,
    TablesWithoutOwnBit,
    TablesOfInputsAlone,
    TablesNodeValue,
    TablesWithoutNodes,
    TablesOfUnsound,
}

/// Mutants of load.
const LOADING: [Mutant; 6] = [
    Mutant::LoadsEntryZero,
    Mutant::LoadsIdleAlways,
    Mutant::LoadsPlanOfRefused,
    Mutant::LoadsNothingDue,
    Mutant::LoadsNeverAsZero,
    Mutant::LoadsWithoutInputs,
];

/// Mutants of the plan writer.
const WRITING: [Mutant; 7] = [
    Mutant::WritesWithoutLastByte,
    Mutant::WritesBehind,
    Mutant::WritesIntoShort,
    Mutant::WritesOneByteShort,
    Mutant::WritesShortBeforeUnsound,
    Mutant::WritesLengthOfShort,
    Mutant::WritesStateBackOtherwise,
];

/// Mutants of an instant.
const INSTANT: [Mutant; 18] = [
    Mutant::InstantCountsDueTwice,
    Mutant::InstantSkipsLowest,
    Mutant::InstantSkipsThirtyTwo,
    Mutant::InstantEventsDescend,
    Mutant::InstantInputWithoutN,
    Mutant::InstantWritesBehind,
    Mutant::InstantWritesIntoShort,
    Mutant::InstantOneByteShort,
    Mutant::InstantShortBeforeUnsound,
    Mutant::InstantStatusBefore,
    Mutant::InstantIntegratorAlways,
    Mutant::InstantWrittenIsBufferLength,
    Mutant::InstantNotCounted,
    Mutant::InstantCommandsStay,
    Mutant::InstantClockRunsOn,
    Mutant::InstantEagerForLazy,
    Mutant::InstantLazyForEager,
    Mutant::InstantUnusedTouched,
];

/// Mutants of the tables.
const TABLES: [Mutant; 7] = [
    Mutant::TablesWithoutEnd,
    Mutant::TablesInnerRange,
    Mutant::TablesWithoutOwnBit,
    Mutant::TablesOfInputsAlone,
    Mutant::TablesNodeValue,
    Mutant::TablesWithoutNodes,
    Mutant::TablesOfUnsound,
];

impl Machine for Mutant {
    fn load(&self, file: &[u8]) -> Box<Loaded> {
        let mut loaded = ProvedCalls.load(file);
        let run = &mut loaded.state.run;
        match self {
            Mutant::LoadsEntryZero => loaded.entry = 0,
            Mutant::LoadsIdleAlways => loaded.state = ProvedCalls.load(&[]).state,
            Mutant::LoadsPlanOfRefused if loaded.number == REFUSED_COMMAND => {
                loaded.state.plan.horizon = 2
            }
            Mutant::LoadsNothingDue => run.d[0] = NEVER,
            Mutant::LoadsNeverAsZero if run.d[0] == NEVER => run.d[0] = 0,
            Mutant::LoadsWithoutInputs => run.inputs = [0; INPUTS],
            _ => (),
        }
        loaded
    }

    fn write(&self, state: &State, buffer: &mut [u8]) -> Box<Written> {
        let before = buffer.to_vec();
        let mut written = ProvedCalls.write(state, buffer);
        let (number, length, buffer_length) = (written.number, written.length, before.len());
        match self {
            Mutant::WritesWithoutLastByte if number == ACCEPTED => {
                buffer[length - 1] = before[length - 1]
            }
            Mutant::WritesBehind if number == ACCEPTED && length < buffer_length => {
                buffer[length] ^= 1
            }
            Mutant::WritesIntoShort if number == REFUSED_WRITE_BUFFER && buffer_length > 0 => {
                buffer[0] ^= 1
            }
            Mutant::WritesOneByteShort if number == REFUSED_WRITE_BUFFER => {
                let mut longer = [before, vec![0]].concat();
                return ProvedCalls.write(state, &mut longer);
            }
            Mutant::WritesShortBeforeUnsound
                if number == REFUSED_UNSOUND && buffer_length < SHORTEST_FILE =>
            {
                written.number = REFUSED_WRITE_BUFFER
            }
            Mutant::WritesLengthOfShort if number == REFUSED_WRITE_BUFFER => {
                written.length = buffer_length
            }
            Mutant::WritesStateBackOtherwise if number == REFUSED_WRITE_BUFFER => {
                written.state.run.clocks.updates = 0;
            }
            _ => (),
        }
        written
    }

    fn instant(&self, engine: Engine, state: &State, buffer: &mut [u8]) -> Box<Ran> {
        let before = buffer.to_vec();
        let engine = match self {
            Mutant::InstantEagerForLazy => Engine::Eager,
            Mutant::InstantLazyForEager => Engine::Lazy,
            _ => engine,
        };
        let mut ran = ProvedCalls.instant(engine, state, buffer);
        let taken = ran.state.run.clocks.clock > state.run.clocks.clock;
        match ran.number {
            ACCEPTED if taken => self.mutate_taken(state, &mut ran, buffer),
            ACCEPTED => (),
            _ => self.mutate_declined(engine, state, &mut ran, &before, buffer),
        }
        let (number, buffer_length) = (ran.number, before.len());
        match self {
            Mutant::InstantWritesBehind if number == ACCEPTED && ran.written < buffer_length => {
                buffer[ran.written] ^= 1;
            }
            Mutant::InstantWrittenIsBufferLength if number == ACCEPTED => {
                ran.written = buffer_length
            }
            Mutant::InstantIntegratorAlways if number == ACCEPTED && ran.status == FINISHED => {
                ran.integrator = 1
            }
            _ => (),
        }
        ran
    }

    fn tables(&self, state: &State) -> Box<Tables> {
        let mut tables = ProvedCalls.tables(state);
        let nodes = state.plan.counts.n.wrapping_add(state.plan.counts.m);
        match self {
            Mutant::TablesWithoutEnd => tables.ranges[state.plan.counts.n.min(INTEGRATORS)] = 0,
            Mutant::TablesInnerRange if state.plan.counts.n > 1 => tables.ranges[1] = 0,
            Mutant::TablesWithoutOwnBit if nodes < SOURCES => tables.reach[nodes] &= !(1 << 32),
            Mutant::TablesOfInputsAlone => tables.values[0] = 0,
            Mutant::TablesNodeValue if nodes < SOURCES => tables.values[nodes] = 0,
            Mutant::TablesWithoutNodes => {
                tables
                    .reach
                    .iter_mut()
                    .for_each(|mask| *mask &= u64::from(u32::MAX));
            }
            Mutant::TablesOfUnsound if *tables == Tables::NONE => tables.values[0] = state.run.q[0],
            _ => (),
        }
        tables
    }
}

impl Mutant {
    /// The answer of an instant that was taken, as the mutant has it.
    fn mutate_taken(&self, state: &State, ran: &mut Ran, buffer: &mut [u8]) {
        let (n, clock) = (state.plan.counts.n, ran.state.run.clocks.clock);
        let due = state.run.d[..n].iter().filter(|&&d| d == clock).count();
        let run = &mut ran.state.run;
        match self {
            // As many as are due are reached too, or at least one.
            Mutant::InstantCountsDueTwice if due > 0 => run.clocks.updates += 1,
            Mutant::InstantSkipsLowest => {
                let lowest = run.l[..n].iter().position(|&l| l == clock);
                lowest.into_iter().for_each(|i| keep(state, ran, i));
            }
            Mutant::InstantSkipsThirtyTwo if n == INTEGRATORS => keep(state, ran, n - 1),
            Mutant::InstantEventsDescend => {
                let events = buffer[..ran.written].chunks(EVENT_BYTES);
                let descending: Vec<u8> = events.rev().flatten().copied().collect();
                buffer[..ran.written].copy_from_slice(&descending);
            }
            Mutant::InstantInputWithoutN => {
                for event in buffer[..ran.written].chunks_mut(EVENT_BYTES) {
                    if usize::from(event[WORD_BYTES]) >= n {
                        event[WORD_BYTES] -= n as u8;
                    }
                }
            }
            Mutant::InstantStatusBefore => (ran.status, ran.integrator) = (PAUSED, 0),
            Mutant::InstantNotCounted => run.clocks.instants -= 1,
            Mutant::InstantCommandsStay => run.clocks.next = state.run.clocks.next,
            Mutant::InstantClockRunsOn if ran.status == FINISHED => {
                run.clocks.clock = state.plan.horizon
            }
            Mutant::InstantUnusedTouched if n < INTEGRATORS => run.d[INTEGRATORS - 1] = NEVER,
            _ => (),
        }
    }

    /// The answer of a declined call as the mutant has it.
    fn mutate_declined(
        &self,
        engine: Engine,
        state: &State,
        ran: &mut Ran,
        before: &[u8],
        buffer: &mut [u8],
    ) {
        match self {
            Mutant::InstantWritesIntoShort if !buffer.is_empty() => buffer[0] ^= 1,
            Mutant::InstantOneByteShort => {
                let mut longer = [before, &[0]].concat();
                *ran = *ProvedCalls.instant(engine, state, &mut longer);
            }
            Mutant::InstantShortBeforeUnsound if buffer.is_empty() => {
                ran.number = REFUSED_RUN_BUFFER
            }
            _ => (),
        }
    }
}

/// Leaves an integrator as it was.
fn keep(state: &State, ran: &mut Ran, i: usize) {
    let (before, run) = (&state.run, &mut ran.state.run);
    (run.x[i], run.s[i]) = (before.x[i], before.s[i]);
    (run.l[i], run.d[i]) = (before.l[i], before.d[i]);
}

/// Each mutant has to be found by a campaign, which finds nothing in the calls as they are.
fn find(mutants: &[Mutant], first_difference: impl Fn(&dyn Machine) -> Option<String>) {
    for mutant in mutants {
        let found = first_difference(mutant);
        println!("{mutant:?}: {found:?}");
        assert!(found.is_some(), "{mutant:?} was not found");
    }
    assert_eq!(first_difference(&ProvedCalls), None);
}

#[test]
fn every_mutant_of_load_is_found() {
    let (files, seed) = (OTHER_CASES, SEED);
    let campaign = starts::Campaign { files, seed };
    find(&LOADING, |machine| {
        campaign.run(machine).differences.into_iter().next()
    });
}

#[test]
fn every_mutant_of_the_plan_writer_is_found() {
    let (states, seed) = (OTHER_CASES, SEED);
    let campaign = writes::Campaign { states, seed };
    find(&WRITING, |machine| {
        campaign.run(machine).differences.into_iter().next()
    });
}

#[test]
fn every_mutant_of_the_tables_is_found() {
    let (states, seed) = (OTHER_CASES, SEED);
    let campaign = tables::Campaign { states, seed };
    find(&TABLES, |machine| {
        campaign.run(machine).differences.into_iter().next()
    });
}

#[test]
fn every_mutant_of_an_instant_is_found() {
    find(&INSTANT, |machine| {
        difference_in_instants(machine, engine::Mutant::None)
    });
}
