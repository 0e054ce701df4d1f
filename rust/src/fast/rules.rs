//! What one entry of a plan has to keep, for a file that is read and for a state that is tested.

use crate::limits::{
    INPUTS, KIND_COMPARISON, KIND_DIFFERENCE, KIND_LIMIT, KIND_PRODUCT, LARGEST_COEFFICIENT,
    LARGEST_HORIZON, M, SOURCES,
};
use crate::plan::{Command, Integrator, Link, Node};
use crate::raw::RawCounts;

/// Below the key of every entry: what a first entry is compared with.
pub const BELOW_EVERY_KEY: i64 = -1;

#[inline]
pub fn within(value: i64, bound: i64) -> bool {
    (-bound..=bound).contains(&value)
}

#[inline]
pub fn horizon(horizon: u32) -> bool {
    (1..=LARGEST_HORIZON).contains(&horizon)
}

#[inline]
pub fn integrator(entry: &Integrator) -> bool {
    within(entry.start, M) && (1..=M).contains(&entry.quantum)
}

#[inline]
pub fn input(first: i64) -> bool {
    within(first, M)
}

/// A node may name the sources below its own.
#[inline]
pub fn node(entry: &Node, own_source: usize) -> bool {
    let Node { low, high, .. } = *entry;
    let rest = match entry.kind {
        KIND_DIFFERENCE | KIND_PRODUCT => entry.b < own_source && low == 0 && high == 0,
        KIND_LIMIT => entry.b == 0 && -M <= low && low <= high && high <= M,
        KIND_COMPARISON => entry.b < own_source && within(low, M) && within(high, M),
        _ => false,
    };
    rest && entry.a < own_source
}

/// The limits of a link; its order is that of [`link_key`].
#[inline]
pub fn link(entry: &Link, counts: &RawCounts) -> bool {
    entry.target < counts.n
        && entry.source < counts.n + counts.m + counts.k
        && entry.coefficient != 0
        && within(entry.coefficient, LARGEST_COEFFICIENT)
}

/// Ascends with target, then source, for a link within its limits.
#[inline]
pub fn link_key(entry: &Link) -> i64 {
    (entry.target * SOURCES + entry.source) as i64
}

/// The limits of a command; its order is that of [`command_key`].
#[inline]
pub fn command(entry: &Command, counts: &RawCounts, horizon: u32) -> bool {
    (1..=horizon).contains(&entry.tick) && entry.input < counts.m && within(entry.value, M)
}

/// Ascends with tick, then input, for a command within its limits.
#[inline]
pub fn command_key(entry: &Command) -> i64 {
    i64::from(entry.tick) * INPUTS as i64 + entry.input as i64
}
