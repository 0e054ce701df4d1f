//! Mutants of the test of soundness: each has one clause exchanged, to show that a comparison notices.

use super::table::{first_command_after, Soundness};
use super::unused::Array;
use crate::file::{Cause, ReaderRules};
use crate::limits::{M, REFUSED_HORIZON, REFUSED_INTEGRATOR};
use crate::{engine, file};

/// M as the tests take it.
const BOUND: i128 = M as i128;

/// One exchanged test of soundness, or none. For most clauses there is one that always holds, one
/// that reaches a step too far and one that ends a step too early.
#[derive(Clone, Copy, Debug, Default, PartialEq, Eq)]
pub enum Mutant {
    /// Document 01 as it stands.
    #[default]
    None,
    /// A count outside its limits is taken for the limit.
    CountsCut,
    /// Counts are looked at in 32 bits.
    CountsIn32Bits,
    /// A plan may have no integrator.
    NoIntegrator,
    /// The plan's rules with this number, 4 to 9, are not asked.
    PlanRule(usize),
    /// This way of breaking the plan's rules is passed over.
    PlanCause(Cause),
    /// The plan's rules as this mutant of the reader has them.
    PlanReader(file::Mutant),
    /// The clock may be anywhere.
    ClockAnywhere,
    /// The clock may be one above the horizon.
    ClockOneAbove,
    /// The clock must be below the horizon.
    ClockBelowHorizon,
    /// l may be anything.
    MovedAnywhere,
    /// l may be one above the clock.
    MovedOneAfter,
    /// l must be below the clock.
    MovedBefore,
    /// d may lie anywhere.
    DueAnywhere,
    /// d may be the clock.
    DueAtClock,
    /// d must be two above the clock.
    DueTwoAhead,
    /// q may be anything.
    OutputAnywhere,
    /// q may be one beyond ±M.
    OutputOneBeyond,
    /// q must be inside ±M.
    OutputInside,
    /// Only the upper bound of q is asked.
    OutputFromAbove,
    /// x may be anything.
    PositionAnywhere,
    /// x may be at a level.
    PositionAtLevel,
    /// x must be two away from a level.
    PositionInside,
    /// |x − q| is worked out in 64 bits, where it may wrap.
    PositionWraps,
    /// s may be anything.
    SlopeAnywhere,
    /// s may be one off.
    SlopeOneOff,
    /// d may be anything above the clock.
    DueUnasked,
    /// d may be one late.
    DueOneLate,
    /// d may be anything where it is never.
    NeverUnasked,
    /// The rules of this mutant of the engines.
    Machine(engine::Mutant),
    /// Inputs may be anything.
    InputAnywhere,
    /// An input may be one beyond ±M.
    InputOneBeyond,
    /// An input must be inside ±M.
    InputInside,
    /// The next command may be any number.
    NextAnywhere,
    /// The next command is the first with tick at or above c.
    NextAtClock,
    /// The next command is any with tick above c.
    NextAnyLater,
    /// Instants may be anything.
    InstantsAnywhere,
    /// Instants may be one above the clock.
    InstantsOneAbove,
    /// Instants must be below the clock, but at 0.
    InstantsBelowClock,
    /// Updates may be anything.
    UpdatesAnywhere,
    /// Updates may be one above n × instants.
    UpdatesOneAbove,
    /// Updates must be below n × instants, but at 0.
    UpdatesBelow,
    /// The unused entries of this array may be anything.
    Unused(Array),
}

/// Those without a number, reader, engine or array of their own.
const SIMPLE: [Mutant; 37] = [
    Mutant::CountsCut,
    Mutant::CountsIn32Bits,
    Mutant::NoIntegrator,
    Mutant::ClockAnywhere,
    Mutant::ClockOneAbove,
    Mutant::ClockBelowHorizon,
    Mutant::MovedAnywhere,
    Mutant::MovedOneAfter,
    Mutant::MovedBefore,
    Mutant::DueAnywhere,
    Mutant::DueAtClock,
    Mutant::DueTwoAhead,
    Mutant::OutputAnywhere,
    Mutant::OutputOneBeyond,
    Mutant::OutputInside,
    Mutant::OutputFromAbove,
    Mutant::PositionAnywhere,
    Mutant::PositionAtLevel,
    Mutant::PositionInside,
    Mutant::PositionWraps,
    Mutant::SlopeAnywhere,
    Mutant::SlopeOneOff,
    Mutant::DueUnasked,
    Mutant::DueOneLate,
    Mutant::NeverUnasked,
    Mutant::InputAnywhere,
    Mutant::InputOneBeyond,
    Mutant::InputInside,
    Mutant::NextAnywhere,
    Mutant::NextAtClock,
    Mutant::NextAnyLater,
    Mutant::InstantsAnywhere,
    Mutant::InstantsOneAbove,
    Mutant::InstantsBelowClock,
    Mutant::UpdatesAnywhere,
    Mutant::UpdatesOneAbove,
    Mutant::UpdatesBelow,
];

/// The causes of refusals 4 to 9 that leave a plan which can be worked with, so that passing over
/// them shows. Of a quantum below 1 no position is near enough, and sources that are not there, kinds
/// above 3 and limits that are exchanged have no values.
const CAUSES: [Cause; 21] = [
    Cause::HorizonZero,
    Cause::HorizonAbove,
    Cause::StartBeyond,
    Cause::QuantumAbove,
    Cause::FirstValueBeyond,
    Cause::UnusedBNotZero,
    Cause::UnusedLowNotZero,
    Cause::UnusedHighNotZero,
    Cause::LowBeyond,
    Cause::HighBeyond,
    Cause::TargetOutOfPlace,
    Cause::CoefficientZero,
    Cause::CoefficientBeyond,
    Cause::LinkRepeats,
    Cause::LinkDescends,
    Cause::TickZero,
    Cause::TickAboveHorizon,
    Cause::InputOutOfPlace,
    Cause::ValueBeyond,
    Cause::CommandRepeats,
    Cause::CommandDescends,
];

/// The mutants of the reader that a plan in a state can show.
const READERS: [file::Mutant; 6] = [
    file::Mutant::RepeatAllowed,
    file::Mutant::BoundExcluded,
    file::Mutant::UnusedBNames,
    file::Mutant::KindThreeOrdered,
    file::Mutant::LinksNameNoNode,
    file::Mutant::TickBelowHorizon,
];

/// The mutants of the engines that slopes and due ticks show.
const ENGINES: [engine::Mutant; 6] = [
    engine::Mutant::TruncatedSlope,
    engine::Mutant::TruncatedProduct,
    engine::Mutant::DistanceBothWays,
    engine::Mutant::LevelMustBePassed,
    engine::Mutant::StrictComparison,
    engine::Mutant::WideClip,
];

impl Mutant {
    /// Every mutant.
    pub fn all() -> Vec<Mutant> {
        let simple = SIMPLE.into_iter();
        simple
            .chain(ReaderRules::DOCUMENT.numbers.map(Mutant::PlanRule))
            .chain(CAUSES.map(Mutant::PlanCause))
            .chain(READERS.map(Mutant::PlanReader))
            .chain(ENGINES.map(Mutant::Machine))
            .chain(Array::ALL.map(Mutant::Unused))
            .collect()
    }

    /// The mutant that is written so; "None" is none.
    pub fn named(name: &str) -> Option<Mutant> {
        let mut all = Mutant::all().into_iter().chain([Mutant::None]);
        all.find(|mutant| format!("{mutant:?}") == name)
    }

    /// Document 01 with this one test exchanged.
    pub fn soundness(self) -> Soundness {
        let mut table = Soundness::DOCUMENT;
        match self {
            Mutant::None => (),
            Mutant::CountsCut => {
                table.count = |section, count| Some(count.clamp(section.least(), section.most()));
            }
            Mutant::CountsIn32Bits => {
                table.count =
                    |section, count| (Soundness::DOCUMENT.count)(section, count as u32 as usize);
            }
            Mutant::NoIntegrator => {
                table.count = |section, count| (count <= section.most()).then_some(count);
            }
            Mutant::PlanRule(number) => table.plan = without_rule(number),
            Mutant::PlanCause(cause) => table.plan.skipped = Some(cause),
            Mutant::PlanReader(mutant) => table.plan = mutant.rules(),
            Mutant::ClockAnywhere => table.clock = |_, _| true,
            Mutant::ClockOneAbove => table.clock = |clock, horizon| clock <= horizon + 1,
            Mutant::ClockBelowHorizon => table.clock = |clock, horizon| clock < horizon,
            Mutant::MovedAnywhere => table.moved = |_, _| true,
            Mutant::MovedOneAfter => table.moved = |l, clock| l <= clock + 1,
            Mutant::MovedBefore => table.moved = |l, clock| l < clock || l == 0,
            Mutant::DueAnywhere => table.due_ahead = |_, _| true,
            Mutant::DueAtClock => table.due_ahead = |clock, d| clock <= d,
            Mutant::DueTwoAhead => table.due_ahead = |clock, d| clock + 1 < d,
            Mutant::OutputAnywhere => table.output = |_| true,
            Mutant::OutputOneBeyond => table.output = |q| q.abs() <= BOUND + 1,
            Mutant::OutputInside => table.output = |q| q.abs() < BOUND,
            Mutant::OutputFromAbove => table.output = |q| q <= BOUND,
            Mutant::PositionAnywhere => table.between_levels = |_, _, _| true,
            Mutant::PositionAtLevel => {
                table.between_levels = |x, q, quantum| (x - q).abs() <= quantum
            }
            Mutant::PositionInside => {
                table.between_levels = |x, q, quantum| (x - q).abs() < quantum - 1
            }
            Mutant::PositionWraps => table.between_levels = between_levels_in_64_bits,
            Mutant::SlopeAnywhere => table.slope = |_, _| true,
            Mutant::SlopeOneOff => table.slope = |held, right| (held - right).abs() <= 1,
            Mutant::DueUnasked => table.due = |_, _| true,
            Mutant::DueOneLate => table.due = due_or_one_late,
            Mutant::NeverUnasked => {
                table.due = |held, right| right.is_none_or(|tick| tick == held.into())
            }
            Mutant::Machine(mutant) => table.machine = mutant.rules(),
            Mutant::InputAnywhere => table.input = |_| true,
            Mutant::InputOneBeyond => table.input = |value| value.abs() <= BOUND + 1,
            Mutant::InputInside => table.input = |value| value.abs() < BOUND,
            Mutant::NextAnywhere => table.next = |_, _, _| true,
            Mutant::NextAtClock => {
                table.next = |next, plan, clock| {
                    clock == 0 && next == 0
                        || clock > 0 && next == first_command_after(plan, clock - 1)
                };
            }
            Mutant::NextAnyLater => {
                table.next = |next, plan, clock| {
                    (first_command_after(plan, clock)..=plan.commands.len()).contains(&next)
                };
            }
            Mutant::InstantsAnywhere => table.instants = |_, _| true,
            Mutant::InstantsOneAbove => table.instants = |instants, clock| instants <= clock + 1,
            Mutant::InstantsBelowClock => {
                table.instants = |instants, clock| instants < clock || instants == 0;
            }
            Mutant::UpdatesAnywhere => table.updates = |_, _| true,
            Mutant::UpdatesOneAbove => table.updates = |updates, moves| updates <= moves + 1,
            Mutant::UpdatesBelow => {
                table.updates = |updates, moves| updates < moves || updates == 0;
            }
            Mutant::Unused(array) => table.skipped_array = Some(array),
        }
        table
    }
}

/// The numbers 4 to 9 but one; trying another twice does no harm.
fn without_rule(number: usize) -> ReaderRules {
    let right = ReaderRules::DOCUMENT;
    let other = match number {
        REFUSED_HORIZON => REFUSED_INTEGRATOR,
        _ => REFUSED_HORIZON,
    };
    ReaderRules {
        numbers: right
            .numbers
            .map(|tried| if tried == number { other } else { tried }),
        ..right
    }
}

fn between_levels_in_64_bits(x: i128, q: i128, quantum: i128) -> bool {
    let distance = (x as i64).wrapping_sub(q as i64).wrapping_abs();
    i128::from(distance) < quantum
}

fn due_or_one_late(held: u32, right: Option<i128>) -> bool {
    let right_at = |held: u32| (Soundness::DOCUMENT.due)(held, right);
    right_at(held) || held > 0 && right_at(held - 1)
}
