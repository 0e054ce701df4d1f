//! Why a file is refused, in more detail than document 01's numbers ask for.
//!
//! Only the number and the entry are part of the answer; the causes let a test campaign count which
//! of the rules behind a number it has met.

use crate::limits::{
    REFUSED_COMMAND, REFUSED_HORIZON, REFUSED_INPUT, REFUSED_INTEGRATOR, REFUSED_LINK,
    REFUSED_NODE, REFUSED_OFFSETS, REFUSED_SHORT, REFUSED_SIZES,
};

/// One way of breaking a rule. The leading digit of each group is its refusal number.
#[derive(Clone, Copy, Debug, PartialEq, Eq, PartialOrd, Ord, Hash)]
pub enum Cause {
    /// 1: fewer than 44 bytes.
    ShortFile,
    /// 2: the first offset is not 44.
    FirstOffset,
    /// 2: a later offset is not the previous offset plus length.
    NextOffset,
    /// 2: the last section does not end the file.
    FileEnd,
    /// 3: a length is no whole number of entries.
    PartOfEntry,
    /// 3: fewer entries than allowed.
    TooFewEntries,
    /// 3: more entries than allowed.
    TooManyEntries,
    /// 4: the horizon is 0.
    HorizonZero,
    /// 4: the horizon is above 2,000,000,000.
    HorizonAbove,
    /// 5: a start is beyond ±M.
    StartBeyond,
    /// 5: a quantum is below 1.
    QuantumBelow,
    /// 5: a quantum is above M.
    QuantumAbove,
    /// 6: a first value is beyond ±M.
    FirstValueBeyond,
    /// 7: a kind is above 3.
    KindAbove,
    /// 7: A names no integrator, input or lower-numbered node.
    AOutOfPlace,
    /// 7: B, where it is used, names no integrator, input or lower-numbered node.
    BOutOfPlace,
    /// 7: B of kind 2 is not 0.
    UnusedBNotZero,
    /// 7: lo of kind 0 or 1 is not 0.
    UnusedLowNotZero,
    /// 7: hi of kind 0 or 1 is not 0.
    UnusedHighNotZero,
    /// 7: lo of kind 2 or 3 is beyond ±M.
    LowBeyond,
    /// 7: hi of kind 2 or 3 is beyond ±M.
    HighBeyond,
    /// 7: lo of kind 2 is above hi.
    LowAboveHigh,
    /// 8: the target is no integrator.
    TargetOutOfPlace,
    /// 8: there is no such source.
    SourceOutOfPlace,
    /// 8: the coefficient is 0.
    CoefficientZero,
    /// 8: the coefficient is beyond ±16,777,216.
    CoefficientBeyond,
    /// 8: target and source are those of the link before.
    LinkRepeats,
    /// 8: target and source are below those of the link before.
    LinkDescends,
    /// 9: the tick is 0.
    TickZero,
    /// 9: the tick is above the horizon.
    TickAboveHorizon,
    /// 9: there is no such input.
    InputOutOfPlace,
    /// 9: the value is beyond ±M.
    ValueBeyond,
    /// 9: tick and input are those of the command before.
    CommandRepeats,
    /// 9: tick and input are below those of the command before.
    CommandDescends,
}

impl Cause {
    /// Every cause, in the order of the refusal numbers.
    pub const ALL: [Cause; 34] = [
        Cause::ShortFile,
        Cause::FirstOffset,
        Cause::NextOffset,
        Cause::FileEnd,
        Cause::PartOfEntry,
        Cause::TooFewEntries,
        Cause::TooManyEntries,
        Cause::HorizonZero,
        Cause::HorizonAbove,
        Cause::StartBeyond,
        Cause::QuantumBelow,
        Cause::QuantumAbove,
        Cause::FirstValueBeyond,
        Cause::KindAbove,
        Cause::AOutOfPlace,
        Cause::BOutOfPlace,
        Cause::UnusedBNotZero,
        Cause::UnusedLowNotZero,
        Cause::UnusedHighNotZero,
        Cause::LowBeyond,
        Cause::HighBeyond,
        Cause::LowAboveHigh,
        Cause::TargetOutOfPlace,
        Cause::SourceOutOfPlace,
        Cause::CoefficientZero,
        Cause::CoefficientBeyond,
        Cause::LinkRepeats,
        Cause::LinkDescends,
        Cause::TickZero,
        Cause::TickAboveHorizon,
        Cause::InputOutOfPlace,
        Cause::ValueBeyond,
        Cause::CommandRepeats,
        Cause::CommandDescends,
    ];

    /// The refusal number of document 01.
    pub fn number(self) -> usize {
        match self {
            Cause::ShortFile => REFUSED_SHORT,
            Cause::FirstOffset | Cause::NextOffset | Cause::FileEnd => REFUSED_OFFSETS,
            Cause::PartOfEntry | Cause::TooFewEntries | Cause::TooManyEntries => REFUSED_SIZES,
            Cause::HorizonZero | Cause::HorizonAbove => REFUSED_HORIZON,
            Cause::StartBeyond | Cause::QuantumBelow | Cause::QuantumAbove => REFUSED_INTEGRATOR,
            Cause::FirstValueBeyond => REFUSED_INPUT,
            Cause::KindAbove
            | Cause::AOutOfPlace
            | Cause::BOutOfPlace
            | Cause::UnusedBNotZero
            | Cause::UnusedLowNotZero
            | Cause::UnusedHighNotZero
            | Cause::LowBeyond
            | Cause::HighBeyond
            | Cause::LowAboveHigh => REFUSED_NODE,
            Cause::TargetOutOfPlace
            | Cause::SourceOutOfPlace
            | Cause::CoefficientZero
            | Cause::CoefficientBeyond
            | Cause::LinkRepeats
            | Cause::LinkDescends => REFUSED_LINK,
            Cause::TickZero
            | Cause::TickAboveHorizon
            | Cause::InputOutOfPlace
            | Cause::ValueBeyond
            | Cause::CommandRepeats
            | Cause::CommandDescends => REFUSED_COMMAND,
        }
    }
}

/// A refused file: why, and "lowest faulty entry of that section (0 for 1 to 4)".
#[derive(Clone, Copy, Debug, PartialEq, Eq)]
pub struct Refusal {
    /// The rule that is broken.
    pub cause: Cause,
    /// The entry that breaks it.
    pub entry: usize,
}

impl Refusal {
    /// A refusal of the file as a whole, which names entry 0.
    pub fn whole(cause: Cause) -> Refusal {
        Refusal { cause, entry: 0 }
    }

    /// The refusal number of document 01.
    pub fn number(self) -> usize {
        self.cause.number()
    }
}
