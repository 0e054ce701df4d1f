//! "Unused entries are 0": the arrays of a state, and how many of their entries are used.

use crate::raw::RawState;

/// An array of the plan or of the running part.
#[derive(Clone, Copy, Debug, PartialEq, Eq, PartialOrd, Ord)]
#[allow(missing_docs)] // The names of the fields.
pub enum Array {
    Starts,
    Quanta,
    Firsts,
    Kinds,
    A,
    B,
    Lows,
    Highs,
    Targets,
    Sources,
    Coefficients,
    Ticks,
    CommandInputs,
    Values,
    X,
    Q,
    S,
    L,
    D,
    Inputs,
}

impl Array {
    /// Every array, those of the plan first.
    pub const ALL: [Array; 20] = [
        Array::Starts,
        Array::Quanta,
        Array::Firsts,
        Array::Kinds,
        Array::A,
        Array::B,
        Array::Lows,
        Array::Highs,
        Array::Targets,
        Array::Sources,
        Array::Coefficients,
        Array::Ticks,
        Array::CommandInputs,
        Array::Values,
        Array::X,
        Array::Q,
        Array::S,
        Array::L,
        Array::D,
        Array::Inputs,
    ];

    /// Whether it belongs to the plan.
    pub fn in_plan(self) -> bool {
        self < Array::X
    }

    /// Whether an unused entry of it is not 0. With a count above its limit all are used.
    pub fn unused_not_zero(self, state: &RawState) -> bool {
        let (plan, run) = (&state.plan, &state.run);
        match self {
            Array::Starts => unused_not_zero(&plan.integrators.starts, plan.counts.n),
            Array::Quanta => unused_not_zero(&plan.integrators.quanta, plan.counts.n),
            Array::Firsts => unused_not_zero(&plan.inputs.firsts, plan.counts.m),
            Array::Kinds => unused_not_zero(&plan.nodes.kinds, plan.counts.k),
            Array::A => unused_not_zero(&plan.nodes.a, plan.counts.k),
            Array::B => unused_not_zero(&plan.nodes.b, plan.counts.k),
            Array::Lows => unused_not_zero(&plan.nodes.lows, plan.counts.k),
            Array::Highs => unused_not_zero(&plan.nodes.highs, plan.counts.k),
            Array::Targets => unused_not_zero(&plan.links.targets, plan.counts.links),
            Array::Sources => unused_not_zero(&plan.links.sources, plan.counts.links),
            Array::Coefficients => unused_not_zero(&plan.links.coefficients, plan.counts.links),
            Array::Ticks => unused_not_zero(&plan.commands.ticks, plan.counts.commands),
            Array::CommandInputs => unused_not_zero(&plan.commands.inputs, plan.counts.commands),
            Array::Values => unused_not_zero(&plan.commands.values, plan.counts.commands),
            Array::X => unused_not_zero(&run.x, plan.counts.n),
            Array::Q => unused_not_zero(&run.q, plan.counts.n),
            Array::S => unused_not_zero(&run.s, plan.counts.n),
            Array::L => unused_not_zero(&run.l, plan.counts.n),
            Array::D => unused_not_zero(&run.d, plan.counts.n),
            Array::Inputs => unused_not_zero(&run.inputs, plan.counts.m),
        }
    }
}

/// Whether any entry from `used` on is not 0.
fn unused_not_zero<T: PartialEq + Default>(entries: &[T], used: usize) -> bool {
    let unused = entries.get(used..).unwrap_or_default();
    unused.iter().any(|entry| *entry != T::default())
}
