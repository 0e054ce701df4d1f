//! The lazy and the eager engine.
//!
//! They keep the state that document 01 names and share nothing with the plain machine but the names of the two. What an
//! instant does is written once; the rules that a known error would replace are reached through
//! the table [`Rules`], so that a [`Mutant`] can exchange one of them and a test see the comparison fail.

pub mod instant;
pub mod mutant;
pub mod rules;
pub mod run;
pub mod state;

pub use mutant::Mutant;
pub use rules::Rules;
pub use state::{IntegratorState, State};

/// Which integrators an instant moves.
#[derive(Clone, Copy, Debug, PartialEq, Eq)]
pub enum Engine {
    /// Those due or reached.
    Lazy,
    /// All.
    Eager,
}

impl Engine {
    /// The lazy engine, then the eager one.
    pub const BOTH: [Engine; 2] = [Engine::Lazy, Engine::Eager];
}
