//! The clauses of a sound state as a table of tests, so that one of them can be exchanged.

use super::unused::Array;
use crate::engine::rules::beyond;
use crate::engine::Rules;
use crate::file::ReaderRules;
use crate::limits::{Section, M, NEVER};
use crate::plan::Plan;

/// The tests that a [`super::Mutant`] exchanges; [`Soundness::DOCUMENT`] is document 01. Numbers are
/// handed over as i128, so that no test can leave its type.
#[derive(Clone, Copy)]
pub struct Soundness {
    /// The count of a section that is worked with; `None` if it is outside its limits.
    pub count: fn(section: Section, count: usize) -> Option<usize>,
    /// The rules of the plan.
    pub plan: ReaderRules,
    /// The rules by which slopes and due ticks are worked out.
    pub machine: Rules,
    /// The array whose unused entries are not looked at.
    pub skipped_array: Option<Array>,
    /// "c ≤ horizon".
    pub clock: fn(clock: i128, horizon: i128) -> bool,
    /// "l ≤ c".
    pub moved: fn(l: i128, clock: i128) -> bool,
    /// "c < d".
    pub due_ahead: fn(clock: i128, d: i128) -> bool,
    /// "|q| ≤ M".
    pub output: fn(q: i128) -> bool,
    /// "|x−q| < D".
    pub between_levels: fn(x: i128, q: i128, quantum: i128) -> bool,
    /// Whether a slope keeps Rate, from the slope held and the right one.
    pub slope: fn(held: i128, right: i128) -> bool,
    /// Whether a due tick keeps Due, from the tick held and the right one; `None` is never.
    pub due: fn(held: u32, right: Option<i128>) -> bool,
    /// "Inputs are within ±M".
    pub input: fn(value: i128) -> bool,
    /// "The next command is the first with tick above c, or the command count if none".
    pub next: fn(next: usize, plan: &Plan, clock: u32) -> bool,
    /// "instants ≤ c".
    pub instants: fn(instants: i128, clock: i128) -> bool,
    /// "updates ≤ n×instants".
    pub updates: fn(updates: i128, moves: i128) -> bool,
}

impl Soundness {
    /// Document 01.
    pub const DOCUMENT: Soundness = Soundness {
        count: |section, count| {
            (section.least()..=section.most())
                .contains(&count)
                .then_some(count)
        },
        plan: ReaderRules::DOCUMENT,
        machine: Rules::DOCUMENT,
        skipped_array: None,
        clock: |clock, horizon| clock <= horizon,
        moved: |l, clock| l <= clock,
        due_ahead: |clock, d| clock < d,
        output: |q| !beyond(q, M as i128),
        between_levels: |x, q, quantum| (x - q).abs() < quantum,
        slope: |held, right| held == right,
        due: keeps_due,
        input: |value| !beyond(value, M as i128),
        next: |next, plan, clock| next == first_command_after(plan, clock),
        instants: |instants, clock| instants <= clock,
        updates: |updates, moves| updates <= moves,
    };
}

/// A tick of u32::MAX would read as never, and no sound state has one.
fn keeps_due(held: u32, right: Option<i128>) -> bool {
    match right {
        None => held == NEVER,
        Some(tick) => held != NEVER && tick == i128::from(held),
    }
}

/// "The first with tick above c, or the command count if none"; ticks ascend in the plan.
pub fn first_command_after(plan: &Plan, clock: u32) -> usize {
    plan.commands
        .partition_point(|command| command.tick <= clock)
}
