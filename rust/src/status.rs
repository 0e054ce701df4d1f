//! The three statuses, as words that the plain machine and the engines have in common.

use crate::limits::{FINISHED, PAUSED, RANGE};

/// What a state says about its next instant.
#[derive(Clone, Copy, Debug, PartialEq, Eq)]
pub enum Status {
    /// The next instant can be taken.
    Paused,
    /// There is no next instant up to the horizon.
    Finished,
    /// The next instant is barred; the lowest integrator whose new output is beyond ±M.
    Range(usize),
}

impl Status {
    /// The status as document 01's number.
    pub fn number(self) -> usize {
        match self {
            Status::Paused => PAUSED,
            Status::Finished => FINISHED,
            Status::Range(_) => RANGE,
        }
    }

    /// The integrator answered with it, "0 unless range".
    pub fn integrator(self) -> usize {
        match self {
            Status::Range(integrator) => integrator,
            _ => 0,
        }
    }
}
