//! The two sides of a comparison: the proved calls, or mutants of them, and the second simulator.

use crate::machine;
use crate::state::{Loaded, Ran, State, Tables, Written};
use crate::{Answer, Rewritten};
use cup_check::calls::{self, Simulator};
use cup_check::engine::Engine;
use cup_check::file::read::{read_by, section_by};
use cup_check::file::{write, Mutant, ReaderRules, Refusal};
use cup_check::limits::{ACCEPTED, REFUSED_WRITE_BUFFER};
use cup_check::plan::Plan;
use cup_check::raw::RawState;

/// The three calls, so that the comparison serves the proved ones and their mutants alike.
pub trait Reader {
    /// Reads a plan file.
    fn read(&self, file: &[u8]) -> Answer {
        crate::read(file)
    }

    /// The section view.
    fn section<'f>(&self, file: &'f [u8], number: usize) -> &'f [u8] {
        crate::section(file, number)
    }

    /// Reads a plan file and writes its plan.
    fn rewrite(&self, file: &[u8], buffer: &mut [u8]) -> Rewritten {
        crate::rewrite(file, buffer)
    }
}

/// The calls on states, for the same purpose.
pub trait Machine {
    /// Loads a plan file.
    fn load(&self, file: &[u8]) -> Box<Loaded> {
        machine::load(file)
    }

    /// The plan writer.
    fn write(&self, state: &State, buffer: &mut [u8]) -> Box<Written> {
        machine::write(state, buffer)
    }

    /// Whether a state is sound.
    fn sound(&self, state: &State) -> bool {
        machine::sound(state)
    }

    /// The tables that a run works out once.
    fn tables(&self, state: &State) -> Box<Tables> {
        machine::tables(state)
    }

    /// One instant.
    fn instant(&self, engine: Engine, state: &State, buffer: &mut [u8]) -> Box<Ran> {
        machine::instant(engine, state, buffer)
    }
}

/// The proved calls as they are linked.
#[derive(Clone, Copy, Debug)]
pub struct ProvedCalls;

impl Reader for ProvedCalls {}

impl Machine for ProvedCalls {}

/// The calls on states in the second simulator's words, for its comparison over lists.
impl Simulator for ProvedCalls {
    fn load(&self, file: &[u8]) -> calls::Loaded {
        let loaded = machine::load(file);
        calls::Loaded {
            number: loaded.number,
            entry: loaded.entry,
            state: RawState::from(&loaded.state),
        }
    }

    fn section<'f>(&self, file: &'f [u8], number: usize) -> &'f [u8] {
        crate::section(file, number)
    }

    fn write(&self, state: &RawState, buffer: &mut [u8]) -> calls::Written {
        let written = machine::write(&State::from(state), buffer);
        calls::Written {
            number: written.number,
            length: written.length,
            state: RawState::from(&written.state),
        }
    }

    fn run(&self, engine: Engine, state: &RawState, budget: u64, buffer: &mut [u8]) -> calls::Ran {
        let ran = machine::run(engine, &State::from(state), budget, buffer);
        calls::Ran {
            number: ran.number,
            status: ran.status,
            integrator: ran.integrator,
            written: ran.written,
            state: RawState::from(&ran.state),
        }
    }

    fn position(&self, state: &RawState, integrator: usize) -> calls::Positioned {
        let positioned = machine::position(&State::from(state), integrator);
        calls::Positioned {
            number: positioned.number,
            value: positioned.value,
            state: RawState::from(&positioned.state),
        }
    }
}

/// The second simulator, or one with a mutant of its reader.
pub struct SecondReader {
    rules: ReaderRules,
}

impl SecondReader {
    /// The second simulator with this mutant.
    pub fn new(mutant: Mutant) -> SecondReader {
        let rules = mutant.rules();
        SecondReader { rules }
    }

    /// The plan of a file, or why it is refused.
    pub fn read(&self, file: &[u8]) -> Result<Plan, Refusal> {
        read_by(&self.rules, file)
    }

    /// The section view.
    pub fn section<'f>(&self, file: &'f [u8], number: usize) -> &'f [u8] {
        section_by(&self.rules, file, number)
    }

    /// Writes what was read into a buffer.
    pub fn rewrite(&self, read: &Result<Plan, Refusal>, buffer: &mut [u8]) -> Rewritten {
        let (number, length) = match read {
            Err(refusal) => (refusal.number(), 0),
            Ok(plan) => match write(plan, buffer) {
                None => (REFUSED_WRITE_BUFFER, 0),
                Some(length) => (ACCEPTED, length),
            },
        };
        Rewritten { number, length }
    }
}
