//! The rules of the reader that a test may exchange, as a table.

use super::cause::{Cause, Refusal};
use crate::limits::{Section, KIND_LIMIT};
use crate::limits::{
    REFUSED_COMMAND, REFUSED_HORIZON, REFUSED_INPUT, REFUSED_INTEGRATOR, REFUSED_LINK, REFUSED_NODE,
};
use crate::plan::{Node, Plan};
use std::cmp::Ordering;

/// The faults of a section, by ascending entry.
pub type Faults<'a> = &'a mut dyn DoubleEndedIterator<Item = Refusal>;

/// The rules that a [`super::Mutant`] exchanges; [`ReaderRules::DOCUMENT`] is document 01.
#[derive(Clone, Copy)]
pub struct ReaderRules {
    /// Where a section ends, from its offset and length.
    pub end: fn(offset: u64, length: u64) -> u64,
    /// Whether a last section with this end ends a file of this length.
    pub ends_file: fn(end: u64, file_length: u64) -> bool,
    /// The most entries of a section.
    pub most: fn(section: Section) -> usize,
    /// Whether the counts of all sections are tried before the horizon.
    pub counts_first: bool,
    /// The numbers 4 to 9 in the order in which they are tried.
    pub numbers: [usize; 6],
    /// Which of a section's faults is answered.
    pub answered: fn(faults: Faults) -> Option<Refusal>,
    /// The entry of a fault that is found at an entry.
    pub entry: fn(cause: Cause, found_at: usize) -> usize,
    /// Whether limits and order of an entry are tried before the next entry is looked at.
    pub order_with_limits: bool,
    /// Whether an entry may follow one whose key is less than, equal to or greater than its own.
    pub may_follow: fn(before: Ordering) -> bool,
    /// Whether a value is outside ±bound.
    pub beyond: fn(value: i64, bound: i64) -> bool,
    /// How many sources a node may name, from its own source number.
    pub node_may_name: fn(source: usize) -> usize,
    /// What is wrong with a node's B, given how many sources it may name.
    pub node_b: fn(node: &Node, sources_below: usize) -> Option<Cause>,
    /// Whether a kind asks lo ≤ hi.
    pub limits_ordered: fn(kind: usize) -> bool,
    /// How many sources a link may name.
    pub link_may_name: fn(plan: &Plan) -> usize,
    /// The last tick that a command may have, from the horizon.
    pub last_tick: fn(horizon: u32) -> u32,
    /// A way of breaking the rules 4 to 9 that is passed over.
    pub skipped: Option<Cause>,
}

impl ReaderRules {
    /// Document 01.
    pub const DOCUMENT: ReaderRules = ReaderRules {
        // As u64, where two words cannot wrap.
        end: |offset, length| offset + length,
        ends_file: |end, file_length| end == file_length,
        most: Section::most,
        counts_first: true,
        numbers: [
            REFUSED_HORIZON,
            REFUSED_INTEGRATOR,
            REFUSED_INPUT,
            REFUSED_NODE,
            REFUSED_LINK,
            REFUSED_COMMAND,
        ],
        answered: |faults| faults.next(),
        // "an order fault is the later entry's", which is where it is found.
        entry: |_, found_at| found_at,
        order_with_limits: true,
        may_follow: |before| before == Ordering::Less,
        beyond: |value, bound| value < -bound || bound < value,
        node_may_name: |source| source,
        node_b,
        limits_ordered: |kind| kind == KIND_LIMIT,
        link_may_name: Plan::sources,
        last_tick: |horizon| horizon,
        skipped: None,
    };
}

/// "B is 0 and names nothing" for kind 2; the other kinds use it.
fn node_b(node: &Node, sources_below: usize) -> Option<Cause> {
    if node.kind == KIND_LIMIT {
        (node.b != 0).then_some(Cause::UnusedBNotZero)
    } else {
        (node.b >= sources_below).then_some(Cause::BOutOfPlace)
    }
}
