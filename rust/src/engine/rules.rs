//! The rules of the machine as a table of functions, all in i128.
//!
//! The width leaves room for states filled by hand with any numbers: a product of two 64-bit
//! values and a sum of 256 products of a value and a coefficient both fit.

use super::Engine;
use crate::limits::{GRAIN_BITS, KIND_DIFFERENCE, KIND_LIMIT, KIND_PRODUCT, M};
use crate::plan::Node;

/// The rules that a test may exchange; [`Rules::DOCUMENT`] is document 01.
#[derive(Clone, Copy)]
pub struct Rules {
    /// The slope of a sum of coefficient × source value.
    pub slope: fn(sum: i128) -> i128,
    /// T of the Due rule from x, q, D and s; `None` is never.
    pub ticks_to_level: fn(x: i128, q: i128, quantum: i128, slope: i128) -> Option<i128>,
    /// A node's value from a and b.
    pub node: fn(node: &Node, a: i128, b: i128) -> i128,
    /// Whether a node depends on its B.
    pub follows_b: fn(node: &Node) -> bool,
    /// Whether dependence is followed through nodes.
    pub nodes_are_followed: bool,
    /// Whether a command reaches, given the input's value before and after it.
    pub command_reaches: fn(before: i64, after: i64) -> bool,
    /// Whether an integrator is moved, given that it is due or reached.
    pub moves: fn(engine: Engine, due: bool, reached: bool) -> bool,
    /// The new output of a due integrator from its position, its old output and its quantum.
    pub due_output: fn(position: i128, q: i128, quantum: i128) -> i128,
    /// The output of an integrator that is moved but not due, from its output and its position.
    pub receiver_output: fn(q: i64, position: i64) -> i64,
    /// Whether a due value bars the instant.
    pub bars: fn(value: i128) -> bool,
    /// Whether every slope is taken after all outputs of the instant are set.
    pub slopes_after_outputs: bool,
}

impl Rules {
    /// Document 01.
    pub const DOCUMENT: Rules = Rules {
        slope,
        ticks_to_level,
        node: node_value,
        follows_b: |node| node.kind != KIND_LIMIT,
        nodes_are_followed: true,
        command_reaches: |_, _| true,
        moves: |engine, due, reached| engine == Engine::Eager || due || reached,
        due_output: |position, _, _| position,
        receiver_output: |q, _| q,
        bars: |value| beyond(value, i128::from(M)),
        slopes_after_outputs: true,
    };
}

/// Whether a value lies outside ±bound.
pub fn beyond(value: i128, bound: i128) -> bool {
    value < -bound || bound < value
}

/// floor(sum / 65,536): an arithmetic shift rounds towards minus infinity.
pub fn slope(sum: i128) -> i128 {
    sum >> GRAIN_BITS
}

/// The distance to the level ahead divided by the speed, rounded up, and at least 1. With x past
/// the level the distance is 0 or negative, and the least T ≥ 1 is 1.
pub fn ticks_to_level(x: i128, q: i128, quantum: i128, slope: i128) -> Option<i128> {
    let distance = match slope {
        0 => return None,
        1.. => q + quantum - x,
        _ => x - (q - quantum),
    };
    Some(divided_rounding_up(distance, slope.abs()).max(1))
}

/// The quotient by a positive divisor, rounded towards plus infinity.
pub fn divided_rounding_up(dividend: i128, divisor: i128) -> i128 {
    let floor = dividend.div_euclid(divisor);
    if dividend.rem_euclid(divisor) == 0 {
        floor
    } else {
        floor + 1
    }
}

/// The value of a node that keeps its kind's rule.
pub fn node_value(node: &Node, a: i128, b: i128) -> i128 {
    let bound = i128::from(M);
    let (low, high) = (i128::from(node.low), i128::from(node.high));
    match node.kind {
        KIND_DIFFERENCE => (a - b).clamp(-bound, bound),
        KIND_PRODUCT => ((a * b) >> GRAIN_BITS).clamp(-bound, bound),
        KIND_LIMIT => a.clamp(low, high),
        _ if a >= b => high,
        _ => low,
    }
}
