//! The plans that are timed. All of them keep going for thousands of instants, but for the chains.

use cup_check::limits::{
    COMMANDS, GRAINS_PER_ML, INPUTS, INTEGRATORS, LARGEST_HORIZON, LINKS, NODES,
};
use cup_check::plan::Plan;

/// Links of each integrator, which make 256 for 32.
const LINKS_EACH: usize = 8;
/// What a cup loses, so that it stays within ±M.
const LEAK: i64 = -48;
/// What a comparison gives.
const DRIVE: i64 = 1 << 27;
/// Quanta are about this; no two cups have the same.
const QUANTUM: i64 = 1 << 21;
/// Ticks from one command to the next.
const COMMANDED_EACH: u32 = 300;

/// n cups with 8 links each, 8 inputs, 16 nodes of all kinds and 64 commands. Every cup leaks, and
/// reads a comparison, which turns round when a cup has passed an input's value, and then inputs,
/// nodes and other cups in turn.
pub fn mixed(n: usize) -> Plan {
    let mut plan = with_inputs(with_cups(Plan::new(LARGEST_HORIZON), n));
    for node in 0..NODES {
        let (cup, input) = (node * 5 % n, plan.input_source(node % INPUTS));
        let (below, gain) = (plan.node_source(node) - 1, plan.input_source(0));
        plan = match node % 4 {
            0 => plan.comparison(cup, input, DRIVE, -DRIVE),
            1 => plan.difference(below, input),
            2 => plan.product(below, gain),
            _ => plan.limit(below, -DRIVE / 8, DRIVE / 8),
        };
    }
    let sources = plan.sources();
    for cup in 0..n {
        let comparison = plan.node_source(cup % 4 * 4);
        let others = (0..sources).map(|step| (n + cup * 7 + step * 11) % sources);
        let others = others.filter(|&source| source != cup && source != comparison);
        let mut named: Vec<usize> = others.take(LINKS_EACH - 2).collect();
        named.extend([cup, comparison]);
        plan = with_links(plan, cup, named);
    }
    with_commands(plan)
}

/// 32 cups with 8 links each, 8 inputs, 16 nodes and 64 commands, in which a cup that is due reaches
/// one other: the cups swing in pairs, and all else that they read are inputs and nodes over inputs.
pub fn pairs() -> Plan {
    let n = INTEGRATORS;
    let mut plan = with_inputs(with_cups(Plan::new(LARGEST_HORIZON), n));
    for node in 0..NODES {
        let inputs = [node, node + 3].map(|input| plan.input_source(input % INPUTS));
        plan = plan.difference(inputs[0], inputs[1]);
    }
    for cup in 0..n {
        let (partner, speed) = (cup ^ 1, if cup % 2 == 0 { -30 } else { 30 });
        plan = plan.link(cup, partner, speed);
        for step in 1..LINKS_EACH {
            plan = plan.link(cup, n + cup % INPUTS + 2 * step, 1);
        }
    }
    with_commands(plan)
}

/// A chain of cups with quantum 1 ml, which starts empty: each cup drains into the next, so each has a
/// link of −900 to itself and one of +900 to the cup before it; the first has its +900 to the one
/// input, of 100 ml. The horizon is 3,000.
pub fn chain(cups: usize) -> Plan {
    let mut plan = Plan::new(3_000);
    for _ in 0..cups {
        plan = plan.integrator(0, GRAINS_PER_ML);
    }
    plan = plan.input(100 * GRAINS_PER_ML);
    plan = plan.link(0, 0, -900).link(0, cups, 900);
    for cup in 1..cups {
        plan = plan.link(cup, cup - 1, 900).link(cup, cup, -900);
    }
    plan
}

fn with_cups(mut plan: Plan, n: usize) -> Plan {
    for cup in 0..n as i64 {
        let start = (cup % 5 - 2) * 8 * QUANTUM;
        plan = plan.integrator(start, QUANTUM + 7_919 * cup);
    }
    plan
}

fn with_inputs(mut plan: Plan) -> Plan {
    for input in 0..INPUTS as i64 {
        plan = plan.input(GRAINS_PER_ML / 2 + 900_000 * input);
    }
    plan
}

fn with_links(mut plan: Plan, cup: usize, mut named: Vec<usize>) -> Plan {
    named.sort();
    for source in named {
        let coefficient = match source {
            _ if source == cup => LEAK,
            _ if source % 2 == 0 => 6,
            _ => 5,
        };
        plan = plan.link(cup, source, coefficient);
    }
    assert!(plan.links.len() <= LINKS);
    plan
}

/// Input 0 stays as it is, since a product has it as its gain.
fn with_commands(mut plan: Plan) -> Plan {
    for number in 0..COMMANDS {
        let input = 1 + number % (INPUTS - 1);
        let value = 700_000 * (number as i64 % 9 - 3);
        plan = plan.command((number as u32 + 1) * COMMANDED_EACH, input, value);
    }
    plan
}
