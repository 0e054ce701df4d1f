//! Load: the plan of a file in fixed arrays, and the state that it starts with.

use super::read::{read_into, Entries};
use super::tables::node_value;
use super::IntegratorState;
use crate::calls::Loaded;
use crate::limits::{
    ACCEPTED, COMMANDS, GRAIN_BITS, INPUTS, INTEGRATORS, LINKS, NEVER, NODES, SOURCES,
};
use crate::plan::{Command, Integrator, Link, Node};
use crate::raw::{
    RawClocks, RawCommands, RawCounts, RawInputs, RawIntegrators, RawLinks, RawNodes, RawPlan,
    RawRunning, RawState,
};

/// A state of zeros, to be filled.
const EMPTY: RawState = RawState {
    plan: RawPlan {
        horizon: 0,
        counts: RawCounts {
            n: 0,
            m: 0,
            k: 0,
            links: 0,
            commands: 0,
        },
        integrators: RawIntegrators {
            starts: [0; INTEGRATORS],
            quanta: [0; INTEGRATORS],
        },
        inputs: RawInputs {
            firsts: [0; INPUTS],
        },
        nodes: RawNodes {
            kinds: [0; NODES],
            a: [0; NODES],
            b: [0; NODES],
            lows: [0; NODES],
            highs: [0; NODES],
        },
        links: RawLinks {
            targets: [0; LINKS],
            sources: [0; LINKS],
            coefficients: [0; LINKS],
        },
        commands: RawCommands {
            ticks: [0; COMMANDS],
            inputs: [0; COMMANDS],
            values: [0; COMMANDS],
        },
    },
    run: RawRunning {
        x: [0; INTEGRATORS],
        q: [0; INTEGRATORS],
        s: [0; INTEGRATORS],
        l: [0; INTEGRATORS],
        d: [0; INTEGRATORS],
        inputs: [0; INPUTS],
        clocks: RawClocks {
            clock: 0,
            next: 0,
            instants: 0,
            updates: 0,
        },
    },
};

/// Load: number, entry, and the start state or the idle state. In a box, where the state is filled;
/// answered by value it would be copied once more.
#[inline(never)]
pub fn load(file: &[u8]) -> Box<Loaded> {
    let mut loaded = Box::new(Loaded {
        number: ACCEPTED,
        entry: 0,
        state: EMPTY,
    });
    match read_into(file, &mut loaded.state.plan) {
        Ok(parts) => {
            loaded.state.plan.horizon = parts.horizon;
            loaded.state.plan.counts = parts.counts;
            start(&mut loaded.state);
        }
        Err(refused) => {
            loaded.number = refused.number;
            loaded.entry = refused.entry;
            // Some entries may have been filled.
            loaded.state = EMPTY;
            make_idle(&mut loaded.state);
        }
    }
    loaded
}

impl Entries for RawPlan {
    #[inline]
    fn integrator(&mut self, number: usize, entry: &Integrator) {
        self.integrators.starts[number] = entry.start;
        self.integrators.quanta[number] = entry.quantum;
    }

    #[inline]
    fn input(&mut self, number: usize, first: i64) {
        self.inputs.firsts[number] = first;
    }

    #[inline]
    fn node(&mut self, number: usize, entry: &Node) {
        self.nodes.kinds[number] = entry.kind;
        self.nodes.a[number] = entry.a;
        self.nodes.b[number] = entry.b;
        self.nodes.lows[number] = entry.low;
        self.nodes.highs[number] = entry.high;
    }

    #[inline]
    fn link(&mut self, number: usize, entry: &Link) {
        self.links.targets[number] = entry.target;
        self.links.sources[number] = entry.source;
        self.links.coefficients[number] = entry.coefficient;
    }

    #[inline]
    fn command(&mut self, number: usize, entry: &Command) {
        self.commands.ticks[number] = entry.tick;
        self.commands.inputs[number] = entry.input;
        self.commands.values[number] = entry.value;
    }
}

/// The running part of a state that has its plan and zeros.
fn start(state: &mut RawState) {
    let RawState { plan, run } = state;
    run.x = plan.integrators.starts;
    run.q = plan.integrators.starts;
    run.inputs = plan.inputs.firsts;
    let slopes = slopes(plan, &run.q, &run.inputs);
    for (i, &s) in slopes[..plan.counts.n].iter().enumerate() {
        let at_start = IntegratorState {
            x: run.x[i],
            s,
            l: 0,
        };
        run.s[i] = s;
        run.d[i] = at_start.due(plan.integrators.quanta[i], run.q[i]);
    }
}

/// The idle state, from zeros.
fn make_idle(state: &mut RawState) {
    state.plan.horizon = 1;
    state.plan.counts.n = 1;
    state.plan.integrators.quanta[0] = 1;
    state.run.d[0] = NEVER;
}

/// The slopes of all integrators by rule, with one pass over the links. The plan keeps its rules,
/// and outputs and inputs are within ±M.
pub fn slopes(
    plan: &RawPlan,
    outputs: &[i64; INTEGRATORS],
    inputs: &[i64; INPUTS],
) -> [i64; INTEGRATORS] {
    let RawCounts { n, m, k, links, .. } = plan.counts;
    let mut values = [0; SOURCES];
    values[..n].copy_from_slice(&outputs[..n]);
    values[n..n + m].copy_from_slice(&inputs[..m]);
    let nodes = &plan.nodes;
    for j in 0..k {
        let operands = (values[nodes.a[j]], values[nodes.b[j]]);
        let (kind, low, high) = (nodes.kinds[j], nodes.lows[j], nodes.highs[j]);
        values[n + m + j] = node_value(kind, operands, low, high);
    }
    let mut sums = [0; INTEGRATORS];
    for entry in 0..links {
        let (target, source) = (plan.links.targets[entry], plan.links.sources[entry]);
        sums[target] += plan.links.coefficients[entry] * values[source];
    }
    sums.map(|sum| sum >> GRAIN_BITS)
}
