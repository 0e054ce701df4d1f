//! What is worked out of a plan once.

use crate::limits::{COMMANDS, GRAIN_BITS, INPUTS, INTEGRATORS, LINKS, M, SOURCES};
use crate::limits::{KIND_DIFFERENCE, KIND_LIMIT, KIND_PRODUCT};
use crate::raw::RawPlan;

/// Places by source number: a plan has at most 56 sources, and a byte is always one of these.
pub const PLACES: usize = 256;
/// The bit of the first node in an entry of the table of reach.
pub const FIRST_NODE_BIT: usize = 32;
/// Nodes by number: a plan has at most 16, and a bit of a mask is always one of these.
const MASK_BITS: usize = 32;
/// Links that are summed up together.
const TERMS: usize = 2;
/// The most rows of links: 256, and behind those of each integrator what adds nothing to its row.
const ROWS: usize = LINKS / TERMS + INTEGRATORS * (TERMS - 1) / TERMS;

/// The value of each source.
pub type Values = [i64; PLACES];

/// One term of a rate.
#[derive(Clone, Copy, Debug, Default)]
pub struct Link {
    coefficient: i32,
    source: u8,
}

/// A static function.
#[derive(Clone, Copy, Debug, Default)]
pub struct Node {
    low: i64,
    high: i64,
    kind: u8,
    a: u8,
    b: u8,
    /// Its own source number.
    pub source: u8,
}

/// A command, with its input's source number.
#[derive(Clone, Copy, Debug, Default)]
pub struct Command {
    /// When.
    pub tick: u32,
    /// Which source is set.
    pub source: u8,
    /// To what.
    pub value: i64,
}

/// What stays the same of an integrator.
#[derive(Clone, Copy, Debug, Default)]
pub struct Integrator {
    /// D.
    pub quantum: i64,
    /// Its first row of links.
    from: usize,
    /// Behind its last row.
    to: usize,
}

/// A plan as the engine reads it.
#[derive(Clone, Debug)]
pub struct Tables {
    /// Integrators.
    pub n: usize,
    /// Inputs.
    pub m: usize,
    /// Nodes.
    pub k: usize,
    /// The last tick of an instant.
    pub horizon: u32,
    /// How many commands there are.
    pub command_count: usize,
    /// By integrator.
    pub integrators: [Integrator; INTEGRATORS],
    /// By target.
    links: [[Link; TERMS]; ROWS],
    /// By node.
    pub nodes: [Node; MASK_BITS],
    /// By tick, as in the plan.
    pub commands: [Command; COMMANDS],
    /// For each source the integrators, and from [`FIRST_NODE_BIT`] on the nodes, that a change of it reaches.
    pub reach: [u64; SOURCES],
}

impl Tables {
    /// The tables of an accepted plan.
    pub fn of(plan: &RawPlan) -> Tables {
        let mut tables = Tables {
            n: plan.counts.n,
            m: plan.counts.m,
            k: plan.counts.k,
            horizon: plan.horizon,
            command_count: plan.counts.commands,
            integrators: [Integrator::default(); INTEGRATORS],
            links: [[Link::default(); TERMS]; ROWS],
            nodes: [Node::default(); MASK_BITS],
            commands: [Command::default(); COMMANDS],
            reach: [0; SOURCES],
        };
        tables.fill_links(plan);
        tables.fill_nodes(plan);
        let commands = &mut tables.commands[..plan.counts.commands];
        for (entry, command) in commands.iter_mut().enumerate() {
            *command = Command {
                tick: plan.commands.ticks[entry],
                source: (plan.counts.n + plan.commands.inputs[entry]) as u8,
                value: plan.commands.values[entry],
            };
        }
        tables
    }

    /// The links, where each integrator's lie, and what they reach.
    fn fill_links(&mut self, plan: &RawPlan) {
        let (mut row, mut entry) = (0, 0);
        for (i, integrator) in self.integrators[..plan.counts.n].iter_mut().enumerate() {
            integrator.quantum = plan.integrators.quanta[i];
            integrator.from = row;
            let own = plan.links.targets[entry..plan.counts.links].iter();
            let last = entry + own.take_while(|&&target| target == i).count();
            while entry < last {
                for link in self.links[row].iter_mut().take(last - entry) {
                    *link = Link {
                        coefficient: plan.links.coefficients[entry] as i32,
                        source: plan.links.sources[entry] as u8,
                    };
                    self.reach[plan.links.sources[entry]] |= 1 << i;
                    entry += 1;
                }
                row += 1;
            }
            integrator.to = row;
        }
    }

    /// The nodes, and what they hand on: from the highest down, so that each has its own reach
    /// when its operands get it.
    fn fill_nodes(&mut self, plan: &RawPlan) {
        for j in (0..plan.counts.k).rev() {
            let (kind, a, b) = (plan.nodes.kinds[j], plan.nodes.a[j], plan.nodes.b[j]);
            let reach = self.reach[plan.counts.n + plan.counts.m + j] | 1 << (FIRST_NODE_BIT + j);
            self.reach[plan.counts.n + plan.counts.m + j] = reach;
            self.reach[a] |= reach;
            if kind != KIND_LIMIT {
                self.reach[b] |= reach;
            }
            self.nodes[j] = Node {
                low: plan.nodes.lows[j],
                high: plan.nodes.highs[j],
                kind: kind as u8,
                a: a as u8,
                b: b as u8,
                source: (plan.counts.n + plan.counts.m + j) as u8,
            };
        }
    }

    /// The values of all sources.
    pub fn values(&self, q: &[i64; INTEGRATORS], inputs: &[i64; INPUTS]) -> Values {
        let mut values = [0; PLACES];
        values[..self.n].copy_from_slice(&q[..self.n]);
        values[self.n..self.n + self.m].copy_from_slice(&inputs[..self.m]);
        for node in &self.nodes[..self.k] {
            values[usize::from(node.source)] = node.value(&values);
        }
        values
    }

    /// The rate of an integrator.
    #[inline]
    pub fn rate(&self, integrator: &Integrator, values: &Values) -> i64 {
        let mut sum = 0;
        for row in &self.links[integrator.from..integrator.to] {
            for link in row {
                sum += i64::from(link.coefficient) * values[usize::from(link.source)];
            }
        }
        sum >> GRAIN_BITS
    }
}

impl Node {
    /// What the node is, from the values of the sources below it.
    #[inline]
    pub fn value(&self, values: &Values) -> i64 {
        let operands = (values[usize::from(self.a)], values[usize::from(self.b)]);
        node_value(usize::from(self.kind), operands, self.low, self.high)
    }
}

/// What a node of a kind makes of the values of A and B.
#[inline]
pub fn node_value(kind: usize, (a, b): (i64, i64), low: i64, high: i64) -> i64 {
    match kind {
        KIND_DIFFERENCE => limited(a - b, -M, M),
        KIND_PRODUCT => limited((a * b) >> GRAIN_BITS, -M, M),
        KIND_LIMIT => limited(a, low, high),
        _ if a >= b => high,
        _ => low,
    }
}

/// A value limited to low..high.
#[inline]
fn limited(value: i64, low: i64, high: i64) -> i64 {
    if value < low {
        low
    } else if value > high {
        high
    } else {
        value
    }
}
