//! What the campaign over states counts, and how often it has to be met.

use super::{Origin, STATES};
use crate::campaign::signs::{count_signs, SIGNS};
use cup_check::file::Cause;
use cup_check::generate::Fill;
use cup_check::limits::{Section, REFUSED_SIZES};
use cup_check::met::Met;
use cup_check::raw::{RawCounts, RawState};
use cup_check::sound::{Array, Clause};
use std::collections::BTreeSet;

/// How often each part of a clause has to be broken, also by itself.
const ENOUGH: u64 = 100;

/// How many sound states there have to be, of bases and of changed ones.
const ENOUGH_SOUND: u64 = 5_000;

/// How many sound bases of each fill, and with each sign of a state that no run leaves, there have to be.
const ENOUGH_OF_A_FILL: u64 = 1_000;

/// How many states that come from a base by a change there have to be.
const ENOUGH_CHANGED: u64 = 1_000_000;

/// A clause of "A sound state", taken apart where it asks for several things.
#[derive(Clone, Copy, Debug, PartialEq, Eq, PartialOrd, Ord)]
pub enum ClausePart {
    /// Fewer entries than a section has to have.
    TooFew(Section),
    /// More entries than a section may have.
    TooMany(Section),
    /// A rule of the plan.
    Plan(Cause),
    /// An unused entry that is not 0.
    Unused(Array),
    /// c ≤ horizon.
    Clock,
    /// l ≤ c.
    Moved,
    /// c < d.
    Ahead,
    /// |q| ≤ M.
    Output,
    /// |x − q| < D.
    Position,
    /// Rate.
    Slope,
    /// Due.
    Due,
    /// Inputs within ±M.
    Input,
    /// The next command.
    Next,
    /// instants ≤ c.
    Instants,
    /// updates ≤ n × instants.
    Updates,
}

impl ClausePart {
    /// Every part.
    pub fn all() -> Vec<ClausePart> {
        let counts = Section::ALL.map(ClausePart::TooMany);
        let causes = Cause::ALL
            .into_iter()
            .filter(|cause| cause.number() > REFUSED_SIZES);
        let others = [
            ClausePart::TooFew(Section::Integrators),
            ClausePart::Clock,
            ClausePart::Moved,
            ClausePart::Ahead,
            ClausePart::Output,
            ClausePart::Position,
            ClausePart::Slope,
            ClausePart::Due,
            ClausePart::Input,
            ClausePart::Next,
            ClausePart::Instants,
            ClausePart::Updates,
        ];
        let parts = counts.into_iter().chain(causes.map(ClausePart::Plan));
        parts
            .chain(Array::ALL.map(ClausePart::Unused))
            .chain(others)
            .collect()
    }

    /// The parts that a state breaks, from the clauses that it breaks.
    fn of(state: &RawState, broken: &[Clause]) -> BTreeSet<ClausePart> {
        let mut parts = BTreeSet::new();
        for clause in broken {
            match clause {
                Clause::Counts => parts.extend(wrong_counts(state.plan.counts)),
                Clause::Plan(refusal) => parts.extend([ClausePart::Plan(refusal.cause)]),
                Clause::UnusedInPlan => parts.extend(unused_parts(state, true)),
                Clause::UnusedInRun => parts.extend(unused_parts(state, false)),
                Clause::ClockAboveHorizon => parts.extend([ClausePart::Clock]),
                Clause::MovedAfterClock(_) => parts.extend([ClausePart::Moved]),
                Clause::DueNotAhead(_) => parts.extend([ClausePart::Ahead]),
                Clause::OutputBeyond(_) => parts.extend([ClausePart::Output]),
                Clause::PositionOutsideLevels(_) => parts.extend([ClausePart::Position]),
                Clause::Slope(_) => parts.extend([ClausePart::Slope]),
                Clause::Due(_) => parts.extend([ClausePart::Due]),
                Clause::InputBeyond(_) => parts.extend([ClausePart::Input]),
                Clause::NextCommand => parts.extend([ClausePart::Next]),
                Clause::InstantsAboveClock => parts.extend([ClausePart::Instants]),
                Clause::UpdatesAboveMoves => parts.extend([ClausePart::Updates]),
            }
        }
        parts
    }
}

fn wrong_counts(counts: RawCounts) -> impl Iterator<Item = ClausePart> {
    let sections = Section::ALL.into_iter().zip(counts.by_section());
    sections.filter_map(|(section, count)| {
        if count < section.least() {
            Some(ClausePart::TooFew(section))
        } else {
            (count > section.most()).then_some(ClausePart::TooMany(section))
        }
    })
}

fn unused_parts(state: &RawState, in_plan: bool) -> impl Iterator<Item = ClausePart> + '_ {
    let arrays = Array::ALL.into_iter();
    let fitting =
        arrays.filter(move |array| array.in_plan() == in_plan && array.unused_not_zero(state));
    fitting.map(ClausePart::Unused)
}

/// What has to be met.
pub fn required() -> Met {
    let mut met = Met::default();
    met.require(CHANGED, ENOUGH_CHANGED);
    met.require("states", STATES);
    met.require_each(SOUND, ENOUGH_SOUND);
    met.require_each(Fill::ALL.map(base_of), ENOUGH_OF_A_FILL);
    met.require_each(SIGNS, ENOUGH_OF_A_FILL);
    for part in ClausePart::all() {
        met.require_each([broken(part), broken_alone(part)], ENOUGH);
    }
    met
}

/// States that come from a base by changing one or two fields or by breaking one clause.
const CHANGED: &str = "changed states";

/// Sound states that are bases, and others.
const SOUND: [&str; 2] = ["sound and unchanged", "sound and changed"];

fn base_of(fill: Fill) -> String {
    format!("sound and unchanged, {fill:?}")
}

fn broken(part: ClausePart) -> String {
    format!("broken, {part:?}")
}

/// With no other part broken, as far as the second simulator looks: behind a wrong count, or a broken rule
/// of the plan, the clauses that build on it have no meaning.
fn broken_alone(part: ClausePart) -> String {
    format!("broken alone, {part:?}")
}

/// Counts a state by where it comes from and by the clauses that it breaks.
pub fn count_state(met: &mut Met, state: &RawState, clauses: &[Clause], origin: Origin) {
    met.count("states");
    if clauses.is_empty() {
        let base = matches!(origin, Origin::Base(_));
        met.count(SOUND[usize::from(!base)]);
    }
    match origin {
        Origin::Base(fill) if clauses.is_empty() => {
            met.count(base_of(fill));
            count_signs(met, state);
        }
        Origin::Changed | Origin::Broken(_) => met.count(CHANGED),
        Origin::Base(_) | Origin::WithoutIntegrators => (),
    }
    let parts = ClausePart::of(state, clauses);
    let alone = parts.len() == 1;
    for part in parts {
        met.count(broken(part));
        met.count_if(alone, broken_alone(part));
    }
}
