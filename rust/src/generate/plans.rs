//! Families of plans, each aimed at a part of document 01.

use super::recipe::{Recipe, Spread};
use super::rng::Rng;
use crate::limits::{
    COMMANDS, INPUTS, INTEGRATORS, KIND_COMPARISON, KIND_DIFFERENCE, KIND_LIMIT, LINKS, NODES,
    SECTIONS,
};
use crate::limits::{GRAINS_PER_ML, LARGEST_COEFFICIENT, LARGEST_HORIZON, M};
use crate::plan::Plan;

/// What a plan is made for.
#[derive(Clone, Copy, Debug, PartialEq, Eq)]
pub enum Family {
    /// A few cups with every kind of node; many events.
    Ordinary,
    /// Pairs of cups that swing, and cups that a comparison empties and fills: runs long.
    Swinging,
    /// Equal cups that are due together and read each other.
    Together,
    /// Cups that leave ±M.
    Range,
    /// Cups whose outputs come to ±M exactly, or to its neighbours.
    Bound,
    /// All counts at their limits, with ordinary numbers.
    Full,
    /// All counts and all numbers at their limits; nearly always barred at once.
    Extreme,
    /// All counts at their limits, with large values, large quanta and small coefficients.
    Wide,
    /// Slopes next to 0 and large quanta: due ticks at the far end of their range.
    Slow,
    /// One to three cups, often with nothing else.
    Tiny,
    /// Sixteen nodes, most of which name the one below.
    Chain,
    /// Many commands at few ticks, with few different values.
    Commanded,
    /// Sixteen nodes that each name the one below, and cups that read the topmost.
    Ladder,
    /// Up to thirty-two cups without inputs, without links or with nothing else at all.
    Bare,
}

impl Family {
    /// Every family.
    pub const ALL: [Family; 14] = [
        Family::Ordinary,
        Family::Swinging,
        Family::Together,
        Family::Range,
        Family::Bound,
        Family::Full,
        Family::Extreme,
        Family::Wide,
        Family::Slow,
        Family::Tiny,
        Family::Chain,
        Family::Commanded,
        Family::Ladder,
        Family::Bare,
    ];

    /// A plan of this family that keeps all rules.
    pub fn plan(self, rng: &mut Rng) -> Plan {
        match self {
            Family::Ordinary => ORDINARY.plan(rng),
            Family::Swinging => swinging(rng),
            Family::Together => together(rng),
            Family::Range => RANGE.plan(rng),
            Family::Bound => bound(rng),
            Family::Full => FULL.plan(rng),
            Family::Extreme => EXTREME.plan(rng),
            Family::Wide => WIDE.plan(rng),
            Family::Slow => slow(rng),
            Family::Tiny => TINY.plan(rng),
            Family::Chain => CHAIN.plan(rng),
            Family::Commanded => COMMANDED.plan(rng),
            Family::Ladder => ladder(rng),
            Family::Bare => bare(rng),
        }
    }
}

/// A plan of any family.
pub fn any(rng: &mut Rng) -> Plan {
    rng.pick(&Family::ALL).plan(rng)
}

/// Every section as long as it may be.
const FULL_COUNTS: [(usize, usize); SECTIONS] = [
    (INTEGRATORS, INTEGRATORS),
    (INPUTS, INPUTS),
    (NODES, NODES),
    (LINKS, LINKS),
    (COMMANDS, COMMANDS),
];

const ORDINARY: Recipe = Recipe {
    horizon: Spread::Within(100, 4_000),
    counts: [(1, 10), (0, 4), (0, 6), (2, 24), (0, 12)],
    start: Spread::Within(-2_000, 2_000),
    quantum: Spread::Within(3, 900),
    value: Spread::Within(-60, 60),
    limit: Spread::Within(-80, 80),
    coefficient: Spread::Within(-GRAINS_PER_ML / 12, GRAINS_PER_ML / 12),
    command_ticks: 12,
};

const RANGE: Recipe = Recipe {
    horizon: Spread::Within(50, 100_000),
    counts: [(2, 12), (1, 4), (0, 4), (4, 30), (0, 10)],
    start: Spread::OneOf(&[-M, -M + 4_000_000, -900, 0, 900, M - 4_000_000, M]),
    quantum: Spread::Within(20_000, 900_000),
    value: Spread::Within(-M, M),
    limit: Spread::Within(-M, M),
    coefficient: Spread::Within(-3, 3),
    command_ticks: 6,
};

const FULL: Recipe = Recipe {
    horizon: Spread::Within(200, 3_000),
    counts: FULL_COUNTS,
    start: Spread::Within(-20_000, 20_000),
    quantum: Spread::Within(200, 9_000),
    value: Spread::Within(-9_000, 9_000),
    limit: Spread::Within(-9_000, 9_000),
    coefficient: Spread::Within(-GRAINS_PER_ML / 300, GRAINS_PER_ML / 300),
    command_ticks: 40,
};

const EXTREME: Recipe = Recipe {
    horizon: Spread::OneOf(&[1, 2, LARGEST_HORIZON as i64 - 1, LARGEST_HORIZON as i64]),
    counts: FULL_COUNTS,
    start: Spread::OneOf(&[-M, -M + 1, -1, 0, 1, M - 1, M]),
    quantum: Spread::OneOf(&[1, 2, M - 1, M]),
    value: Spread::OneOf(&[-M, -M + 1, -1, 0, 1, M - 1, M]),
    limit: Spread::OneOf(&[-M, -1, 0, 1, M]),
    coefficient: Spread::OneOf(&[
        -LARGEST_COEFFICIENT,
        -GRAINS_PER_ML,
        -1,
        1,
        GRAINS_PER_ML,
        LARGEST_COEFFICIENT,
    ]),
    command_ticks: 20,
};

const WIDE: Recipe = Recipe {
    horizon: Spread::OneOf(&[3_000, 90_000, LARGEST_HORIZON as i64]),
    counts: FULL_COUNTS,
    start: Spread::OneOf(&[-M / 2, -1, 0, 1, M / 2]),
    quantum: Spread::OneOf(&[M / 64, M / 8, M - 1, M]),
    value: Spread::OneOf(&[-M, -M + 1, -1, 0, 1, M - 1, M]),
    limit: Spread::OneOf(&[-M, -1, 0, 1, M]),
    coefficient: Spread::OneOf(&[-2, -1, 1, 2]),
    command_ticks: 20,
};

/// Without links; [`slow`] adds them.
const SLOW: Recipe = Recipe {
    horizon: Spread::OneOf(&[LARGEST_HORIZON as i64 - 1, LARGEST_HORIZON as i64]),
    counts: [(1, 4), (1, 3), (0, 3), (0, 0), (4, 12)],
    start: Spread::Within(-M / 2, M / 2),
    quantum: Spread::OneOf(&[1 << 24, M / 3, M - 1, M]),
    value: Spread::Within(-2, 2),
    limit: Spread::Within(-2, 2),
    coefficient: Spread::OneOf(&[1]),
    command_ticks: 12,
};

const TINY: Recipe = Recipe {
    horizon: Spread::Within(1, 30),
    counts: [(1, 3), (0, 1), (0, 2), (0, 3), (0, 3)],
    start: Spread::Within(-3, 3),
    quantum: Spread::Within(1, 6),
    value: Spread::Within(-4, 4),
    limit: Spread::Within(-3, 3),
    coefficient: Spread::OneOf(&[
        -2 * GRAINS_PER_ML,
        -GRAINS_PER_ML,
        -1,
        1,
        GRAINS_PER_ML - 1,
        GRAINS_PER_ML,
        2 * GRAINS_PER_ML,
    ]),
    command_ticks: 3,
};

const CHAIN: Recipe = Recipe {
    horizon: Spread::Within(200, 50_000),
    counts: [(2, 6), (1, 3), (NODES, NODES), (4, 20), (0, 8)],
    start: Spread::Within(-3 * GRAINS_PER_ML, 3 * GRAINS_PER_ML),
    quantum: Spread::Within(GRAINS_PER_ML / 8, 2 * GRAINS_PER_ML),
    value: Spread::Within(-3 * GRAINS_PER_ML, 3 * GRAINS_PER_ML),
    limit: Spread::Within(-2 * GRAINS_PER_ML, 2 * GRAINS_PER_ML),
    coefficient: Spread::Within(-GRAINS_PER_ML / 24, GRAINS_PER_ML / 24),
    command_ticks: 8,
};

const COMMANDED: Recipe = Recipe {
    horizon: Spread::Within(20, 400),
    counts: [(1, 5), (2, INPUTS), (0, 4), (2, 20), (10, COMMANDS)],
    start: Spread::Within(-50, 50),
    quantum: Spread::Within(2, 40),
    value: Spread::OneOf(&[-3, 0, 3]),
    limit: Spread::Within(-5, 5),
    coefficient: Spread::OneOf(&[-GRAINS_PER_ML, GRAINS_PER_ML, GRAINS_PER_ML / 2]),
    command_ticks: 9,
};

/// Without nodes and links; [`ladder`] adds them.
const LADDER: Recipe = Recipe {
    horizon: Spread::Within(100, 3_000),
    counts: [(2, 8), (1, 3), (0, 0), (0, 0), (0, 8)],
    start: Spread::Within(-2_000, 2_000),
    quantum: Spread::Within(20, 900),
    value: Spread::Within(-900, 900),
    limit: Spread::Within(-900, 900),
    coefficient: Spread::OneOf(&[1]),
    command_ticks: 8,
};

/// [`bare`] leaves sections out.
const BARE: Recipe = Recipe {
    horizon: Spread::OneOf(&[1, 2, 50, 1_000, LARGEST_HORIZON as i64]),
    counts: [(1, INTEGRATORS), (1, INPUTS), (0, 3), (1, 40), (0, 20)],
    start: Spread::Within(-400, 400),
    quantum: Spread::Within(20, 300),
    value: Spread::Within(-40, 40),
    limit: Spread::Within(-40, 40),
    coefficient: Spread::Within(-GRAINS_PER_ML / 40, GRAINS_PER_ML / 40),
    command_ticks: 6,
};

/// Pairs with slopes of opposite sign turn around each other; what they grow by each turn is small
/// against their size. Each further cup is filled below and emptied above an input's value.
fn swinging(rng: &mut Rng) -> Plan {
    let pairs = rng.below(4) + 1;
    let emptied = rng.below(4);
    let mut plan = Plan::new(rng.within(50_000, i64::from(LARGEST_HORIZON)) as u32);
    for _ in 0..pairs {
        let size = rng.within(1_000, 400_000);
        let quantum = (size / rng.within(4, 40)).max(1);
        plan = plan.integrator(size, quantum).integrator(0, quantum);
    }
    for _ in 0..emptied {
        plan = plan.integrator(0, rng.within(5, 90));
    }
    plan = plan.input(rng.within(-100, 100));
    let level = plan.input_source(0);
    for cup in 0..emptied {
        let (filling, emptying) = (rng.within(1, 9), -rng.within(1, 9));
        plan = plan.comparison(2 * pairs + cup, level, filling, emptying);
    }
    for pair in 0..pairs {
        let speed = rng.within(GRAINS_PER_ML / 4_096, GRAINS_PER_ML / 64);
        plan = plan
            .link(2 * pair, 2 * pair + 1, -speed)
            .link(2 * pair + 1, 2 * pair, speed);
    }
    for cup in 0..emptied {
        let node = plan.node_source(cup);
        plan = plan.link(2 * pairs + cup, node, GRAINS_PER_ML);
    }
    if rng.once_in(2) {
        plan = plan.command(rng.within(1, 50_000) as u32, 0, rng.within(-100, 100));
    }
    plan
}

/// The cups read inputs, and nodes whose limits are small, but no cups.
fn slow(rng: &mut Rng) -> Plan {
    let mut plan = SLOW.plan(rng);
    let inputs = plan.input_source(0)..plan.node_source(0);
    let limited = |&node: &usize| plan.nodes[node].kind >= KIND_LIMIT;
    let nodes = (0..plan.nodes.len()).filter(limited);
    let sources: Vec<usize> = inputs
        .chain(nodes.map(|node| plan.node_source(node)))
        .collect();
    for target in 0..plan.integrators.len() {
        for &source in &sources {
            if !rng.once_in(3) {
                plan = plan.link(target, source, rng.pick(&[-GRAINS_PER_ML, GRAINS_PER_ML]));
            }
        }
    }
    plan
}

/// Each cup has an input of its own that fills or empties it evenly, so that after some steps its
/// output is at the bound, or one beside it. Commands turn some of them round.
fn bound(rng: &mut Rng) -> Plan {
    let count = rng.below(5) + 1;
    let mut plan = Plan::new(rng.within(40, 400) as u32);
    for cup in 0..count {
        let rate = rng.within(1, 50_000);
        let quantum = rate * rng.within(1, 6);
        let distance = quantum * rng.within(1, 6) + rng.pick(&[0, 0, 1, -1]);
        let sign = rng.pick(&[1, -1]);
        plan = plan.integrator(sign * (M - distance), quantum);
        plan = plan
            .input(sign * rate)
            .link(cup, count + cup, GRAINS_PER_ML);
    }
    let mut turned: Vec<(u32, usize)> = (0..count)
        .map(|cup| (rng.within(1, 40) as u32, cup))
        .collect();
    turned.sort();
    for (tick, cup) in turned {
        let value = plan.inputs[cup] * rng.pick(&[-1, 0, 1]);
        plan = plan.command(tick, cup, value);
    }
    plan
}

/// Equal quanta, starts and coefficients make levels fall on the same tick.
fn together(rng: &mut Rng) -> Plan {
    let count = rng.below(8) + 2;
    let quantum = rng.within(2, 60);
    let start = rng.within(-20, 20);
    let mut plan = Plan::new(rng.within(50, 5_000) as u32);
    for _ in 0..count {
        plan = plan.integrator(start, quantum);
    }
    plan = plan.input(rng.within(1, 9)).input(rng.within(-9, -1));
    plan = plan.difference(0, count - 1).comparison(0, count, -3, 4);
    let drive = rng.within(1, 3) * GRAINS_PER_ML;
    let coupling = rng.within(-GRAINS_PER_ML / 64, GRAINS_PER_ML / 64) | 1;
    for cup in 0..count {
        let neighbour = (cup + 1) % count;
        plan = plan.link(cup, neighbour, coupling);
        plan = plan.link(cup, count + cup % 2, drive);
        plan = plan.link(cup, count + 2 + cup % 2, GRAINS_PER_ML / 2);
    }
    for tick in [10, 20, 30] {
        plan = plan.command(tick, rng.below(2), rng.within(-9, 9));
    }
    plan
}

/// A change of the lowest source goes up through all sixteen nodes before it reaches a cup. Some nodes
/// have a second source, which may be any below.
fn ladder(rng: &mut Rng) -> Plan {
    let mut plan = LADDER.plan(rng);
    let lowest = rng.below(plan.node_source(0));
    for number in 0..NODES {
        let sources_below = plan.node_source(number);
        let below = if number == 0 {
            lowest
        } else {
            sources_below - 1
        };
        let other = rng.below(sources_below);
        let (low, high) = (rng.within(-900, 0), rng.within(1, 900));
        plan = match rng.pick(&[KIND_DIFFERENCE, KIND_LIMIT, KIND_LIMIT, KIND_COMPARISON]) {
            KIND_DIFFERENCE => plan.difference(below, other),
            KIND_LIMIT => plan.limit(below, low, high),
            _ => plan.comparison(other, below, low, high),
        };
    }
    let topmost = plan.node_source(NODES - 1);
    for cup in 0..plan.integrators.len() {
        let drive = rng.within(GRAINS_PER_ML / 90, GRAINS_PER_ML / 30) * rng.pick(&[1, -1]);
        if rng.once_in(2) {
            plan = plan.link(cup, rng.below(topmost), GRAINS_PER_ML / 20);
        }
        plan = plan.link(cup, topmost, drive);
    }
    plan
}

/// Links may name inputs and nodes, so a plan without inputs is drawn without them and not cut.
fn bare(rng: &mut Rng) -> Plan {
    let [integrators, inputs, nodes, links, commands] = BARE.counts;
    let none = (0, 0);
    let counts = match rng.below(4) {
        0 => [integrators, none, nodes, links, none],
        1 => [integrators, inputs, nodes, none, commands],
        2 => [integrators, none, none, links, none],
        _ => [integrators, none, none, none, none],
    };
    Recipe { counts, ..BARE }.plan(rng)
}
