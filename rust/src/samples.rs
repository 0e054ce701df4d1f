//! The plans kept in the folder `plans`, with no chance in them.

use crate::file::encode;
use crate::limits::{GRAINS_PER_ML, LARGEST_HORIZON, M};
use crate::plan::Plan;

/// A plan file and its name without ending.
#[derive(Clone, Debug)]
pub struct Sample {
    /// The name.
    pub name: &'static str,
    /// The bytes.
    pub file: Vec<u8>,
}

/// All samples.
pub fn all() -> Vec<Sample> {
    let sample = |name, plan: Plan| Sample {
        name,
        file: encode(&plan),
    };
    vec![
        sample("sample", document_cup()),
        sample("chain", chain()),
        sample("kinds", kinds()),
        sample("overflow", overflow()),
        sample("long", long()),
        sample("full", full()),
        sample("refused", refused()),
    ]
}

/// Grains of a number of millilitres.
const fn ml(amount: i64) -> i64 {
    amount * GRAINS_PER_ML
}

/// The coefficient that takes this part of a source's value per tick.
const fn part(of: i64) -> i64 {
    GRAINS_PER_ML / of
}

/// Document 01's "A cup in full".
pub fn document_cup() -> Plan {
    Plan::new(10)
        .integrator(0, 10)
        .integrator(0, 1_000)
        .input(3)
        .link(0, 2, GRAINS_PER_ML)
        .link(1, 0, GRAINS_PER_ML)
        .command(6, 0, -3)
}

/// Five cups, each draining into the next; a pump fills the first and stops at tick 150.
fn chain() -> Plan {
    let drain = part(40);
    let mut plan = Plan::new(600);
    for _ in 0..5 {
        plan = plan.integrator(0, ml(6));
    }
    plan = plan
        .input(ml(2))
        .link(0, 0, -drain)
        .link(0, 5, GRAINS_PER_ML);
    for cup in 1..5 {
        plan = plan.link(cup, cup - 1, drain).link(cup, cup, -drain);
    }
    plan.command(150, 0, 0)
}

/// Two cups and a node of every kind: a drain that opens at a level (3), what flows from the first
/// to the second (0, then limited by 2), and an outflow through a valve that an input opens (1).
fn kinds() -> Plan {
    let (first, second, pump, level, valve) = (0, 1, 2, 3, 4);
    let (drain, difference, flow, outflow) = (5, 6, 7, 8);
    Plan::new(500)
        .integrator(0, ml(3))
        .integrator(ml(5), ml(2))
        .input(ml(1))
        .input(ml(40))
        .input(part(20))
        .comparison(first, level, 0, ml(2))
        .difference(first, second)
        .limit(difference, -ml(10), ml(10))
        .product(second, valve)
        .link(first, pump, GRAINS_PER_ML)
        .link(first, drain, -GRAINS_PER_ML)
        .link(first, flow, -part(20))
        .link(second, flow, part(20))
        .link(second, outflow, -GRAINS_PER_ML)
        .command(200, 0, ml(2))
        .command(200, 2, part(40))
        .command(350, 0, 0)
        .command(350, 1, ml(20))
}

/// A cup that grows by an eighth of itself until it would leave ±M, beside one that fills evenly.
fn overflow() -> Plan {
    Plan::new(10_000)
        .integrator(0, ml(100))
        .integrator(ml(20), ml(5))
        .input(ml(3))
        .link(0, 2, GRAINS_PER_ML)
        .link(1, 1, part(8))
        .command(20, 0, ml(6))
        .command(9_000, 0, 0)
}

/// Slopes of one and two grains per tick over the longest horizon; a comparison turns the second
/// cup round whenever its output passes a level.
fn long() -> Plan {
    let (first, second, rate, level, turn) = (0, 1, 2, 3, 4);
    Plan::new(LARGEST_HORIZON)
        .integrator(-1_000_000_000, 1 << 26)
        .integrator(0, 1 << 25)
        .input(1)
        .input(3 << 26)
        .comparison(second, level, 2, -2)
        .link(first, rate, GRAINS_PER_ML)
        .link(second, turn, GRAINS_PER_ML)
        .command(1_000_000_000, 0, -1)
        .command(1_500_000_000, 1, -(3 << 26))
        .command(LARGEST_HORIZON, 0, 0)
}

/// Every section as long as it may be: four rings of eight cups. Each cup leaks, takes from the
/// cup before it and from the one across, from two pumps and from nodes that its ring shares.
fn full() -> Plan {
    let mut plan = Plan::new(400);
    for cup in 0..32 {
        plan = plan.integrator(ml(cup % 8), ml(120 + 9 * cup));
    }
    for pump in 0..8 {
        plan = plan.input(ml(pump % 3) / 2);
    }
    for ring in 0..4 {
        plan = ring_nodes(plan, ring);
    }
    for cup in 0..32 {
        plan = ring_links(plan, cup);
    }
    for number in 0..64 {
        let (tick, pump) = (6 * (number / 2 + 1), number % 8);
        let value = ml(number as i64 % 5) - ml(1);
        plan = plan.command(tick as u32, pump, value / 2);
    }
    plan
}

/// One node of every kind for a ring: a difference across it, that difference limited, the limited
/// one times a pump, and a tip of its first cup.
fn ring_nodes(plan: Plan, ring: usize) -> Plan {
    let (first, across) = (8 * ring, 8 * ring + 4);
    let (pump, level) = (32 + ring, 36 + ring);
    let difference = 40 + 4 * ring;
    plan.difference(first, across)
        .limit(difference, -ml(30), ml(30))
        .product(difference + 1, pump)
        .comparison(first, level, -ml(1), ml(1))
}

fn ring_links(plan: Plan, cup: usize) -> Plan {
    let (ring, place) = (cup / 8, cup % 8);
    let before = 8 * ring + (place + 7) % 8;
    let across = 8 * ring + (place + 4) % 8;
    let nodes = 40 + 4 * ring;
    let mut terms = [
        (cup, -part(12)),
        (before, part(24)),
        (across, part(60)),
        (32 + place, GRAINS_PER_ML),
        (32 + (place + 3) % 8, part(2)),
        (nodes, -part(90)),
        (nodes + 1 + place % 2, part(80)),
        (nodes + 3, -part(3)),
    ];
    terms.sort();
    let linked = |plan: Plan, (source, coefficient)| plan.link(cup, source, coefficient);
    terms.into_iter().fold(plan, linked)
}

/// The chain with links 3 and 4 exchanged: an order fault, which is the later entry's.
fn refused() -> Plan {
    let mut plan = chain();
    plan.links.swap(3, 4);
    // A fault of a later section, which goes unnamed.
    plan.commands[0].value = M + 1;
    plan
}
