//! The structs of include/cup.h, field for field, and the second simulator's state as one of them.
//!
//! The fields and their order are those of the header. `bridge/tests/layout.rs` fixes size and place of
//! every field, here and in the header; `bridge/tests/echo.rs` compares the two.

mod fields;

pub use fields::{Field, Words};

use cup_check::limits::{COMMANDS, INPUTS, INTEGRATORS, LINKS, NODES, SOURCES};
use cup_check::raw::{
    RawClocks, RawCommands, RawCounts, RawInputs, RawIntegrators, RawLinks, RawNodes, RawPlan,
    RawRunning, RawState,
};

/// `CupCounts`: how many entries each section of a plan has.
#[derive(Clone, Copy, Debug, PartialEq, Eq)]
#[repr(C)]
#[allow(missing_docs)] // The fields carry the header's names.
pub struct Counts {
    pub n: usize,
    pub m: usize,
    pub k: usize,
    pub links: usize,
    pub commands: usize,
}

/// `CupIntegrators`.
#[derive(Clone, Debug, PartialEq, Eq)]
#[repr(C)]
#[allow(missing_docs)]
pub struct Integrators {
    pub starts: [i64; INTEGRATORS],
    pub quanta: [i64; INTEGRATORS],
}

/// `CupInputs`.
#[derive(Clone, Debug, PartialEq, Eq)]
#[repr(C)]
#[allow(missing_docs)]
pub struct Inputs {
    pub firsts: [i64; INPUTS],
}

/// `CupNodes`; `a` and `b` are source numbers.
#[derive(Clone, Debug, PartialEq, Eq)]
#[repr(C)]
#[allow(missing_docs)]
pub struct Nodes {
    pub kinds: [usize; NODES],
    pub a: [usize; NODES],
    pub b: [usize; NODES],
    pub lows: [i64; NODES],
    pub highs: [i64; NODES],
}

/// `CupLinks`.
#[derive(Clone, Debug, PartialEq, Eq)]
#[repr(C)]
#[allow(missing_docs)]
pub struct Links {
    pub targets: [usize; LINKS],
    pub sources: [usize; LINKS],
    pub coefficients: [i64; LINKS],
}

/// `CupCommands`; `inputs` are input numbers, counted from 0.
#[derive(Clone, Debug, PartialEq, Eq)]
#[repr(C)]
#[allow(missing_docs)]
pub struct Commands {
    pub ticks: [u32; COMMANDS],
    pub inputs: [usize; COMMANDS],
    pub values: [i64; COMMANDS],
}

/// `CupPlan`: what the plan file says, with 0 in unused entries.
#[derive(Clone, Debug, PartialEq, Eq)]
#[repr(C)]
#[allow(missing_docs)]
pub struct Plan {
    pub horizon: u32,
    pub counts: Counts,
    pub integrators: Integrators,
    pub inputs: Inputs,
    pub nodes: Nodes,
    pub links: Links,
    pub commands: Commands,
}

/// `CupClocks`: the clock, the next command, instants and updates.
#[derive(Clone, Copy, Debug, PartialEq, Eq)]
#[repr(C)]
#[allow(missing_docs)]
pub struct Clocks {
    pub clock: u32,
    pub next: usize,
    pub instants: u64,
    pub updates: u64,
}

/// `CupRunning`: how far the plan has run.
#[derive(Clone, Debug, PartialEq, Eq)]
#[repr(C)]
#[allow(missing_docs)]
pub struct Running {
    pub x: [i64; INTEGRATORS],
    pub q: [i64; INTEGRATORS],
    pub s: [i64; INTEGRATORS],
    pub l: [u32; INTEGRATORS],
    pub d: [u32; INTEGRATORS],
    pub inputs: [i64; INPUTS],
    pub clocks: Clocks,
}

/// `CupState`, which may hold any numbers.
#[derive(Clone, Debug, PartialEq, Eq)]
#[repr(C)]
#[allow(missing_docs)]
pub struct State {
    pub plan: Plan,
    pub run: Running,
}

/// `CupLoaded`, what load answers.
#[derive(Clone, Debug, PartialEq, Eq)]
#[repr(C)]
pub struct Loaded {
    /// 0 or the refusal, 1 to 9.
    pub number: usize,
    /// The lowest faulty entry, 0 for the numbers 0 to 4.
    pub entry: usize,
    /// The start state, or the idle state.
    pub state: State,
}

/// `CupWritten`, what the plan writer answers.
#[derive(Clone, Debug, PartialEq, Eq)]
#[repr(C)]
pub struct Written {
    /// 0, 10 or 13.
    pub number: usize,
    /// Bytes written, 0 if the number is not 0.
    pub length: usize,
    /// The state handed in.
    pub state: State,
}

/// `CupRan`, what a run answers.
#[derive(Clone, Debug, PartialEq, Eq)]
#[repr(C)]
pub struct Ran {
    /// 0, 10, 11 or 12.
    pub number: usize,
    /// 0 paused, 1 finished, 2 range.
    pub status: usize,
    /// The integrator of status 2, else 0.
    pub integrator: usize,
    /// Bytes written.
    pub written: usize,
    /// The state afterwards.
    pub state: State,
}

/// `CupPositioned`, what the position call answers.
#[derive(Clone, Debug, PartialEq, Eq)]
#[repr(C)]
pub struct Positioned {
    /// 0, 10 or 14.
    pub number: usize,
    /// x + s × (c − l), 0 if the number is not 0.
    pub value: i64,
    /// The state handed in.
    pub state: State,
}

/// `CupTables`, what a run works out once.
#[derive(Clone, Debug, PartialEq, Eq)]
#[repr(C)]
pub struct Tables {
    /// The first link whose target is i or above, or the number of links if there is none, for i
    /// up to n; so integrator i's links are those from its entry to before the next one's.
    pub ranges: [usize; INTEGRATORS + 1],
    /// For each source the integrators, and from bit 32 on the nodes, that its change reaches; of
    /// a node its own bit too.
    pub reach: [u64; SOURCES],
    /// The value of each source.
    pub values: [i64; SOURCES],
}

impl Tables {
    /// What is answered for a state that is not sound.
    pub const NONE: Tables = Tables {
        ranges: [0; INTEGRATORS + 1],
        reach: [0; SOURCES],
        values: [0; SOURCES],
    };
}

/// Conversions by the fields' names, so that no two can be exchanged on the way. The first list has
/// the fields that are numbers or arrays, the second those that are structs.
macro_rules! same_fields {
    ($mirror:ident, $raw:ident, [$($field:ident)*], [$($part:ident)*]) => {
        impl From<&$raw> for $mirror {
            fn from(raw: &$raw) -> $mirror {
                $mirror { $($field: raw.$field,)* $($part: (&raw.$part).into(),)* }
            }
        }

        impl From<&$mirror> for $raw {
            fn from(mirror: &$mirror) -> $raw {
                $raw { $($field: mirror.$field,)* $($part: (&mirror.$part).into(),)* }
            }
        }
    };
}

same_fields!(Counts, RawCounts, [n m k links commands], []);
same_fields!(Integrators, RawIntegrators, [starts quanta], []);
same_fields!(Inputs, RawInputs, [firsts], []);
same_fields!(Nodes, RawNodes, [kinds a b lows highs], []);
same_fields!(Links, RawLinks, [targets sources coefficients], []);
same_fields!(Commands, RawCommands, [ticks inputs values], []);
same_fields!(Plan, RawPlan, [horizon], [counts integrators inputs nodes links commands]);
same_fields!(Clocks, RawClocks, [clock next instants updates], []);
same_fields!(Running, RawRunning, [x q s l d inputs], [clocks]);
same_fields!(State, RawState, [], [plan run]);
