//! Node values and slopes of the plain machine.

use crate::limits::{GRAINS_PER_ML, KIND_COMPARISON, KIND_DIFFERENCE, KIND_LIMIT, KIND_PRODUCT, M};
use crate::plan::{Node, Plan};

/// The values of all sources by source number: "integrators give q, inputs their value, nodes
/// their value", the nodes "worked out in node order".
pub fn of_all_sources(plan: &Plan, outputs: &[i64], inputs: &[i64]) -> Vec<i64> {
    let mut values = [outputs, inputs].concat();
    for node in &plan.nodes {
        values.push(node_value(node, &values));
    }
    values
}

/// Rate: "floor(sum of coefficient × source value over its links / 65,536)".
pub fn slope(plan: &Plan, integrator: usize, values: &[i64]) -> i64 {
    let sum: i64 = plan
        .links
        .iter()
        .filter(|link| link.target == integrator)
        .map(|link| link.coefficient * values[link.source])
        .sum();
    sum.div_euclid(GRAINS_PER_ML)
}

/// How many nodes of kind 0, 1 or 2 had their value cut to a limit.
pub fn clipped_nodes(plan: &Plan, values: &[i64]) -> usize {
    let cut = |node: &&Node| unlimited(node, values) != node_value(node, values);
    plan.nodes.iter().filter(cut).count()
}

fn node_value(node: &Node, values: &[i64]) -> i64 {
    let value = unlimited(node, values);
    match node.kind {
        KIND_DIFFERENCE | KIND_PRODUCT => value.clamp(-M, M),
        KIND_LIMIT => value.clamp(node.low, node.high),
        KIND_COMPARISON => value,
        kind => panic!("no node kind {kind} in a plan that keeps the rules"),
    }
}

/// The value before it is clipped (kinds 0 and 1) or limited (kind 2).
fn unlimited(node: &Node, values: &[i64]) -> i64 {
    let a = values[node.a];
    match node.kind {
        KIND_DIFFERENCE => a - values[node.b],
        KIND_PRODUCT => (a * values[node.b]).div_euclid(GRAINS_PER_ML),
        KIND_LIMIT => a,
        _ => {
            if a >= values[node.b] {
                node.high
            } else {
                node.low
            }
        }
    }
}
