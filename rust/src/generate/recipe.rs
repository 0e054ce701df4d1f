//! Accepted plans from ranges for their counts and numbers.

use super::rng::Rng;
use crate::limits::{Section, KIND_COMPARISON, KIND_LIMIT, SECTIONS};
use crate::plan::{Command, Integrator, Link, Node, Plan};
use std::collections::BTreeSet;

/// Where a number is drawn from.
#[derive(Clone, Copy, Debug)]
pub enum Spread {
    /// Evenly from a range, both ends included.
    Within(i64, i64),
    /// One of a few.
    OneOf(&'static [i64]),
}

impl Spread {
    /// A number of this spread.
    pub fn draw(self, rng: &mut Rng) -> i64 {
        match self {
            Spread::Within(low, high) => rng.within(low, high),
            Spread::OneOf(list) => rng.pick(list),
        }
    }
}

/// Ranges for everything in a plan. The numbers must keep the limits of document 01; counts of
/// links and commands are met as far as there are different keys.
#[derive(Clone, Copy, Debug)]
pub struct Recipe {
    /// The horizon.
    pub horizon: Spread,
    /// Least and greatest count of each section.
    pub counts: [(usize, usize); SECTIONS],
    /// Starts.
    pub start: Spread,
    /// Quanta.
    pub quantum: Spread,
    /// First values and command values.
    pub value: Spread,
    /// lo and hi of kinds 2 and 3.
    pub limit: Spread,
    /// Coefficients; a 0 becomes 1.
    pub coefficient: Spread,
    /// How many different ticks the commands may have, beside the horizon.
    pub command_ticks: usize,
}

impl Recipe {
    /// A plan of this recipe.
    pub fn plan(&self, rng: &mut Rng) -> Plan {
        let mut plan = Plan::new(self.horizon.draw(rng) as u32);
        for _ in 0..self.count(rng, Section::Integrators) {
            plan.integrators.push(Integrator {
                start: self.start.draw(rng),
                quantum: self.quantum.draw(rng),
            });
        }
        for _ in 0..self.count(rng, Section::Inputs) {
            plan.inputs.push(self.value.draw(rng));
        }
        for number in 0..self.count(rng, Section::Nodes) {
            let sources_below = plan.node_source(number);
            plan.nodes.push(self.node(rng, sources_below));
        }
        let links = self.count(rng, Section::Links);
        self.add_links(rng, &mut plan, links);
        let commands = self.count(rng, Section::Commands);
        self.add_commands(rng, &mut plan, commands);
        plan
    }

    fn count(&self, rng: &mut Rng, section: Section) -> usize {
        let (least, most) = self.counts[section as usize];
        rng.within(least as i64, most as i64) as usize
    }

    /// Half of the time a node names the source just below it, which makes long chains.
    fn node(&self, rng: &mut Rng, sources_below: usize) -> Node {
        let kind = rng.below(KIND_COMPARISON + 1);
        let source = |rng: &mut Rng| match rng.once_in(2) {
            true => sources_below - 1,
            false => rng.below(sources_below),
        };
        let (a, b) = (source(rng), source(rng));
        let (one, other) = (self.limit.draw(rng), self.limit.draw(rng));
        let (low, high) = match kind {
            KIND_LIMIT => (one.min(other), one.max(other)),
            KIND_COMPARISON => (one, other),
            _ => (0, 0),
        };
        let b = if kind == KIND_LIMIT { 0 } else { b };
        Node {
            kind,
            a,
            b,
            low,
            high,
        }
    }

    fn add_links(&self, rng: &mut Rng, plan: &mut Plan, count: usize) {
        let (targets, sources) = (plan.integrators.len(), plan.sources());
        let count = count.min(targets * sources);
        let mut keys = BTreeSet::new();
        while keys.len() < count {
            keys.insert((rng.below(targets), rng.below(sources)));
        }
        for (target, source) in keys {
            let drawn = self.coefficient.draw(rng);
            let coefficient = if drawn == 0 { 1 } else { drawn };
            plan.links.push(Link {
                target,
                source,
                coefficient,
            });
        }
    }

    fn add_commands(&self, rng: &mut Rng, plan: &mut Plan, count: usize) {
        let horizon = i64::from(plan.horizon);
        let mut ticks: Vec<u32> = (0..self.command_ticks)
            .map(|_| rng.within(1, horizon) as u32)
            .collect();
        ticks.push(plan.horizon);
        let different: BTreeSet<u32> = ticks.iter().copied().collect();
        let count = count.min(different.len() * plan.inputs.len());
        let mut keys = BTreeSet::new();
        while keys.len() < count {
            keys.insert((rng.pick(&ticks), rng.below(plan.inputs.len())));
        }
        for (tick, input) in keys {
            let value = self.value.draw(rng);
            plan.commands.push(Command { tick, input, value });
        }
    }
}
