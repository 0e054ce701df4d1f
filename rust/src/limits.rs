//! The figures of document 01 under names, those of the header by the header's without `CUP_`.
//!
//! `bridge/tests/numbers.rs` compares each with document 01's number and with the header's.

/// M: the bound of starts, quanta, input values, node limits and outputs, in grains.
pub const M: i64 = 1 << 30;
/// Grains in a millilitre: the divisor of the rate and of node kind 1.
pub const GRAINS_PER_ML: i64 = 1 << GRAIN_BITS;
/// The same as a number of bits: an arithmetic shift by them rounds towards minus infinity.
pub const GRAIN_BITS: u32 = 16;
/// The bound of a link's coefficient.
pub const LARGEST_COEFFICIENT: i64 = 1 << 24;
/// The last tick that a horizon may name.
pub const LARGEST_HORIZON: u32 = 2_000_000_000;
/// The due tick of an integrator that is never due.
pub const NEVER: u32 = u32::MAX;

/// The number of the integrators' section, in the header of a plan file and for the section view.
pub const SECTION_INTEGRATORS: usize = Section::Integrators as usize;
/// The same of the inputs.
pub const SECTION_INPUTS: usize = Section::Inputs as usize;
/// The same of the nodes.
pub const SECTION_NODES: usize = Section::Nodes as usize;
/// The same of the links.
pub const SECTION_LINKS: usize = Section::Links as usize;
/// The same of the commands.
pub const SECTION_COMMANDS: usize = Section::Commands as usize;

/// Node kind a − b.
pub const KIND_DIFFERENCE: usize = 0;
/// Node kind floor(a × b / 65,536).
pub const KIND_PRODUCT: usize = 1;
/// Node kind "a limited to lo..hi".
pub const KIND_LIMIT: usize = 2;
/// Node kind "hi if a ≥ b, else lo".
pub const KIND_COMPARISON: usize = 3;

/// Bytes of a word, the width of all numbers in files and events.
pub const WORD_BYTES: usize = 4;
/// Sections of a plan file.
pub const SECTIONS: usize = 5;
/// Bytes of the horizon and the five pairs.
pub const HEADER_BYTES: usize = 44;
/// Bytes of an entry of each section.
pub const INTEGRATOR_BYTES: usize = 8;
/// The same of the inputs.
pub const INPUT_BYTES: usize = 4;
/// The same of the nodes.
pub const NODE_BYTES: usize = 20;
/// The same of the links.
pub const LINK_BYTES: usize = 12;
/// The same of the commands.
pub const COMMAND_BYTES: usize = 12;
/// Bytes of one event.
pub const EVENT_BYTES: usize = 12;
/// Bytes of the longest plan that is accepted.
pub const LONGEST_FILE: usize = 4_492;

/// The largest budget that a run accepts.
pub const LARGEST_BUDGET: u64 = 1_024;
/// What the listing program reads at most: one byte more than the longest plan.
pub const LISTING_INPUT: usize = LONGEST_FILE + 1;
/// The budget of each run of the listing program.
pub const LISTING_BUDGET: u64 = 64;

/// The most integrators of a plan.
pub const INTEGRATORS: usize = 32;
/// The most inputs of a plan.
pub const INPUTS: usize = 8;
/// The most nodes of a plan.
pub const NODES: usize = 16;
/// The most links of a plan.
pub const LINKS: usize = 256;
/// The most commands of a plan.
pub const COMMANDS: usize = 64;
/// Entries of a table by source number. A plan has at most 56 sources.
pub const SOURCES: usize = 64;

/// The longest buffer that a run with a budget can ask for, as `CUP_RUN_BYTES` of the header.
pub const fn run_bytes(budget: usize) -> usize {
    budget * (INTEGRATORS + INPUTS) * EVENT_BYTES
}

/// The number of an accepted call.
pub const ACCEPTED: usize = 0;
/// Refusal of a short file. The words of all refusals are in docs/FORMAT.md.
pub const REFUSED_SHORT: usize = 1;
/// Refusal of the pairs of offset and length.
pub const REFUSED_OFFSETS: usize = 2;
/// Refusal of a section's length.
pub const REFUSED_SIZES: usize = 3;
/// Refusal of the horizon.
pub const REFUSED_HORIZON: usize = 4;
/// Refusal of an integrator.
pub const REFUSED_INTEGRATOR: usize = 5;
/// Refusal of an input.
pub const REFUSED_INPUT: usize = 6;
/// Refusal of a node.
pub const REFUSED_NODE: usize = 7;
/// Refusal of a link.
pub const REFUSED_LINK: usize = 8;
/// Refusal of a command.
pub const REFUSED_COMMAND: usize = 9;
/// Refusal of a state.
pub const REFUSED_UNSOUND: usize = 10;
/// Refusal of a budget.
pub const REFUSED_BUDGET: usize = 11;
/// Refusal of a run's buffer.
pub const REFUSED_RUN_BUFFER: usize = 12;
/// Refusal of the plan writer's buffer.
pub const REFUSED_WRITE_BUFFER: usize = 13;
/// Refusal of an integrator number.
pub const REFUSED_INTEGRATOR_NUMBER: usize = 14;

/// The status of a state whose next instant can be taken.
pub const PAUSED: usize = 0;
/// The status of a state that has no next instant up to the horizon.
pub const FINISHED: usize = 1;
/// The status of a state whose next instant is barred.
pub const RANGE: usize = 2;

/// A section of the plan file.
#[derive(Clone, Copy, Debug, PartialEq, Eq, PartialOrd, Ord)]
pub enum Section {
    /// Starts and quanta.
    Integrators,
    /// First values.
    Inputs,
    /// Static functions.
    Nodes,
    /// Terms of the rates.
    Links,
    /// Values that inputs take later.
    Commands,
}

impl Section {
    /// The sections in file order.
    pub const ALL: [Section; SECTIONS] = [
        Section::Integrators,
        Section::Inputs,
        Section::Nodes,
        Section::Links,
        Section::Commands,
    ];

    /// Bytes of one entry.
    pub const fn entry_bytes(self) -> usize {
        match self {
            Section::Integrators => INTEGRATOR_BYTES,
            Section::Inputs => INPUT_BYTES,
            Section::Nodes => NODE_BYTES,
            Section::Links => LINK_BYTES,
            Section::Commands => COMMAND_BYTES,
        }
    }

    /// The fewest entries: only integrators have to be there.
    pub const fn least(self) -> usize {
        match self {
            Section::Integrators => 1,
            _ => 0,
        }
    }

    /// The most entries.
    pub const fn most(self) -> usize {
        match self {
            Section::Integrators => INTEGRATORS,
            Section::Inputs => INPUTS,
            Section::Nodes => NODES,
            Section::Links => LINKS,
            Section::Commands => COMMANDS,
        }
    }
}
