//! The proved calls on states.
//!
//! A state may be filled by hand; no call asks anything of it. Answers that hold a state are in a
//! box, since a state is 10 KB.

use crate::header;
use crate::state::{Loaded, Positioned, Ran, State, Tables, Written};
use cup_check::engine::Engine;

/// Loads a plan file: number, entry, and the start state or the idle state.
#[allow(unsafe_code)]
pub fn load(file: &[u8]) -> Box<Loaded> {
    // SAFETY: the slice is readable for its length.
    Box::new(unsafe { header::cup_load(file.as_ptr(), file.len()) })
}

/// The plan writer: 10 for a state that is not sound, 13 for a short buffer, else the file from the
/// buffer's start; later bytes keep their value, and all do if the number is not 0.
#[allow(unsafe_code)]
pub fn write(state: &State, buffer: &mut [u8]) -> Box<Written> {
    // SAFETY: the slice is valid for its length and borrowed mutably; the state goes as a copy.
    Box::new(unsafe { header::cup_write(state.clone(), buffer.as_mut_ptr(), buffer.len()) })
}

/// Whether a state is sound.
#[allow(unsafe_code)]
pub fn sound(state: &State) -> bool {
    // SAFETY: the function is given a copy of the state and nothing else.
    unsafe { header::cup_sound(state.clone()) }
}

/// The state as it comes back from the library.
#[allow(unsafe_code)]
pub fn echo(state: &State) -> Box<State> {
    // SAFETY: the function is given a copy of the state and nothing else.
    Box::new(unsafe { header::cup_echo(state.clone()) })
}

/// The tables that a run starts with; all 0 for a state that is not sound.
#[allow(unsafe_code)]
pub fn tables(state: &State) -> Box<Tables> {
    // SAFETY: the function is given a copy of the state and nothing else.
    Box::new(unsafe { header::cup_tables(state.clone()) })
}

/// The lazy run: 10 for a state that is not sound, 11 for a budget above 1,024, 12 for a short buffer;
/// else the budget's instants, or fewer if the status is first 1 or 2, with their events from the
/// buffer's start. Later bytes keep their value, and all do if the number is not 0.
#[allow(unsafe_code)]
pub fn run_lazy(state: &State, budget: u64, buffer: &mut [u8]) -> Box<Ran> {
    // SAFETY: the slice is valid for its length and borrowed mutably; the state goes as a copy.
    Box::new(unsafe {
        header::cup_run_lazy(state.clone(), budget, buffer.as_mut_ptr(), buffer.len())
    })
}

/// The eager run, in all else as [`run_lazy`].
#[allow(unsafe_code)]
pub fn run_eager(state: &State, budget: u64, buffer: &mut [u8]) -> Box<Ran> {
    // SAFETY: the slice is valid for its length and borrowed mutably; the state goes as a copy.
    Box::new(unsafe {
        header::cup_run_eager(state.clone(), budget, buffer.as_mut_ptr(), buffer.len())
    })
}

/// A run by either engine.
pub fn run(engine: Engine, state: &State, budget: u64, buffer: &mut [u8]) -> Box<Ran> {
    match engine {
        Engine::Lazy => run_lazy(state, budget, buffer),
        Engine::Eager => run_eager(state, budget, buffer),
    }
}

/// One instant: a run with budget 1.
pub fn instant(engine: Engine, state: &State, buffer: &mut [u8]) -> Box<Ran> {
    run(engine, state, 1, buffer)
}

/// The position call: 10 for a state that is not sound, 14 for an integrator number of n or more, else
/// where the integrator is at the state's clock.
#[allow(unsafe_code)]
pub fn position(state: &State, integrator: usize) -> Box<Positioned> {
    // SAFETY: the function is given a copy of the state and a number.
    Box::new(unsafe { header::cup_position(state.clone(), integrator) })
}
