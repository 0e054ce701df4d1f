//! A plan as plain data.
//!
//! A [`Plan`] may break the rules: the reader fills it before it tests it, and the generators make
//! faulty ones on purpose. [`crate::file::rules`] tells which rules it breaks.

use crate::limits::{KIND_COMPARISON, KIND_DIFFERENCE, KIND_LIMIT, KIND_PRODUCT};

/// A cup.
#[derive(Clone, Copy, Debug, PartialEq, Eq)]
pub struct Integrator {
    /// Position and output at tick 0.
    pub start: i64,
    /// D, the distance from the output to either level.
    pub quantum: i64,
}

/// A static function of two sources.
#[derive(Clone, Copy, Debug, PartialEq, Eq)]
pub struct Node {
    /// 0 to 3.
    pub kind: usize,
    /// The source A.
    pub a: usize,
    /// The source B, or 0 for kind 2, where it names nothing.
    pub b: usize,
    /// lo.
    pub low: i64,
    /// hi.
    pub high: i64,
}

/// One term of an integrator's rate.
#[derive(Clone, Copy, Debug, PartialEq, Eq)]
pub struct Link {
    /// The integrator whose rate it belongs to.
    pub target: usize,
    /// The source that is multiplied.
    pub source: usize,
    /// The factor, in grains.
    pub coefficient: i64,
}

/// A value that an input takes at a tick.
#[derive(Clone, Copy, Debug, PartialEq, Eq)]
pub struct Command {
    /// When.
    pub tick: u32,
    /// Which input, counted from 0.
    pub input: usize,
    /// The value from then on.
    pub value: i64,
}

/// A plan: the horizon and five lists.
#[derive(Clone, Debug, Default, PartialEq, Eq)]
pub struct Plan {
    /// The last tick at which an instant may be taken.
    pub horizon: u32,
    /// Sources 0 to n − 1.
    pub integrators: Vec<Integrator>,
    /// First values of the sources n to n + m − 1.
    pub inputs: Vec<i64>,
    /// The sources from n + m.
    pub nodes: Vec<Node>,
    /// The terms of all rates.
    pub links: Vec<Link>,
    /// What the inputs are told.
    pub commands: Vec<Command>,
}

impl Plan {
    /// A plan with nothing but a horizon, to be filled by the calls below.
    pub fn new(horizon: u32) -> Plan {
        Plan {
            horizon,
            ..Plan::default()
        }
    }

    /// Adds an integrator.
    pub fn integrator(mut self, start: i64, quantum: i64) -> Plan {
        self.integrators.push(Integrator { start, quantum });
        self
    }

    /// Adds an input.
    pub fn input(mut self, first: i64) -> Plan {
        self.inputs.push(first);
        self
    }

    /// Adds a node of any kind.
    pub fn node(mut self, kind: usize, a: usize, b: usize, low: i64, high: i64) -> Plan {
        self.nodes.push(Node {
            kind,
            a,
            b,
            low,
            high,
        });
        self
    }

    /// Adds a node a − b.
    pub fn difference(self, a: usize, b: usize) -> Plan {
        self.node(KIND_DIFFERENCE, a, b, 0, 0)
    }

    /// Adds a node floor(a × b / 65,536).
    pub fn product(self, a: usize, b: usize) -> Plan {
        self.node(KIND_PRODUCT, a, b, 0, 0)
    }

    /// Adds a node that limits a source.
    pub fn limit(self, a: usize, low: i64, high: i64) -> Plan {
        self.node(KIND_LIMIT, a, 0, low, high)
    }

    /// Adds a node that is `high` if a ≥ b, else `low`.
    pub fn comparison(self, a: usize, b: usize, low: i64, high: i64) -> Plan {
        self.node(KIND_COMPARISON, a, b, low, high)
    }

    /// Adds a link.
    pub fn link(mut self, target: usize, source: usize, coefficient: i64) -> Plan {
        self.links.push(Link {
            target,
            source,
            coefficient,
        });
        self
    }

    /// Adds a command.
    pub fn command(mut self, tick: u32, input: usize, value: i64) -> Plan {
        self.commands.push(Command { tick, input, value });
        self
    }

    /// The source number of an input.
    pub fn input_source(&self, input: usize) -> usize {
        self.integrators.len() + input
    }

    /// The source number of a node; also how many sources that node may name.
    pub fn node_source(&self, node: usize) -> usize {
        self.integrators.len() + self.inputs.len() + node
    }

    /// How many sources there are.
    pub fn sources(&self) -> usize {
        self.node_source(self.nodes.len())
    }

    /// The most events of one instant: one for each integrator and each input.
    pub fn events_per_instant(&self) -> usize {
        self.integrators.len() + self.inputs.len()
    }
}
