//! A run: up to a budget of instants.

use super::instant::{status, take};
use super::rules::Rules;
use super::state::State;
use super::Engine;
use crate::status::Status;

/// What an accepted run answers beside the state.
#[derive(Clone, Copy, Debug, PartialEq, Eq)]
pub struct Outcome {
    /// The status of the state after the run.
    pub status: Status,
    /// Bytes written from the buffer's start.
    pub written: usize,
}

/// "Takes b instants, or fewer if the status is first 1 or 2." The buffer has room for the events
/// of `budget` instants.
pub fn run(
    state: &mut State,
    engine: Engine,
    budget: u64,
    buffer: &mut [u8],
    rules: &Rules,
) -> Outcome {
    let mut written = 0;
    for _ in 0..budget {
        if status(state, rules) != Status::Paused {
            break;
        }
        written += take(state, engine, &mut buffer[written..], rules);
    }
    Outcome {
        status: status(state, rules),
        written,
    }
}
