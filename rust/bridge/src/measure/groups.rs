//! States of which each instant moves a fixed number of n cups, to see what an instant's cost grows with.

use cup_check::generate::states::set_slopes_and_dues;
use cup_check::limits::{GRAINS_PER_ML, INPUTS, INTEGRATORS, LARGEST_HORIZON, M};
use cup_check::plan::Plan;
use cup_check::raw::RawState;

/// The sizes that are tried, as n and how many an instant moves: first n grows, then what moves.
pub const SIZES: [(usize, usize); 8] = [
    (4, 2),
    (8, 2),
    (16, 2),
    (INTEGRATORS, 2),
    (INTEGRATORS, 4),
    (INTEGRATORS, 8),
    (INTEGRATORS, 16),
    (INTEGRATORS, 32),
];

/// Ticks from one instant of a group to its next.
const PERIOD: i64 = 64;
/// The slope of a group's first cup: the inputs are 1 to 8 ml, and it reads each with coefficient 1.
const FIRST_SLOPE: i64 = 1 + 2 + 3 + 4 + 5 + 6 + 7 + 8;
/// With which the other cups read the inputs from 1 on.
const COEFFICIENTS: [i64; INPUTS - 1] = [-1, -2, 3, -4, -1, 1, 1];

/// The start of n cups in groups of which each instant moves one: the group's first cup is due, and
/// the others read it.
///
/// A first cup's slope stays as it is, so it is due each [`PERIOD`] ticks. No two first cups are due
/// at one tick: their positions are filled by hand, and lie apart.
pub fn state(n: usize, group: usize) -> RawState {
    let mut state = RawState::start(&plan(n, group));
    let groups = n / group;
    for number in 0..groups {
        let waited = number as i64 * PERIOD / groups as i64;
        state.run.x[number * group] = FIRST_SLOPE * waited;
    }
    set_slopes_and_dues(&mut state);
    state
}

/// Every cup has 8 links: a first cup to the 8 inputs, any other to its first cup and 7 inputs. The
/// others have so large a quantum that none is due within thousands of instants.
fn plan(n: usize, group: usize) -> Plan {
    let mut plan = Plan::new(LARGEST_HORIZON);
    for cup in 0..n {
        let quantum = match cup % group {
            0 => FIRST_SLOPE * PERIOD,
            _ => M,
        };
        plan = plan.integrator(0, quantum);
    }
    for input in 1..=INPUTS as i64 {
        plan = plan.input(input * GRAINS_PER_ML);
    }
    for cup in 0..n {
        plan = match cup % group {
            0 => with_links_of_first(plan, cup),
            place => with_links_of_other(plan, cup, cup - place),
        };
    }
    plan
}

fn with_links_of_first(mut plan: Plan, cup: usize) -> Plan {
    for input in 0..INPUTS {
        let source = plan.input_source(input);
        plan = plan.link(cup, source, 1);
    }
    plan
}

/// Neighbours read the first cup with another sign, so that slopes of both signs occur.
fn with_links_of_other(mut plan: Plan, cup: usize, first: usize) -> Plan {
    plan = plan.link(cup, first, if cup % 2 == 0 { 3 } else { -3 });
    for (number, coefficient) in COEFFICIENTS.into_iter().enumerate() {
        let source = plan.input_source(1 + number);
        plan = plan.link(cup, source, coefficient);
    }
    plan
}
