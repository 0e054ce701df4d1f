//! The rules 4 to 9 for a plan whose counts are within their limits.

use super::cause::{Cause, Refusal};
use super::reader_rules::ReaderRules;
use crate::limits::{
    KIND_COMPARISON, KIND_DIFFERENCE, KIND_PRODUCT, LARGEST_COEFFICIENT, LARGEST_HORIZON, M,
};
use crate::limits::{
    REFUSED_HORIZON, REFUSED_INPUT, REFUSED_INTEGRATOR, REFUSED_LINK, REFUSED_NODE,
};
use crate::plan::{Command, Integrator, Link, Node, Plan};
use std::cmp::Ordering;

/// The first rule broken, tried in the order of the numbers 4 to 9.
pub fn check(plan: &Plan) -> Result<(), Refusal> {
    check_by(&ReaderRules::DOCUMENT, plan)
}

/// The same by a table of rules.
pub fn check_by(rules: &ReaderRules, plan: &Plan) -> Result<(), Refusal> {
    let mut numbers = rules.numbers.into_iter();
    numbers.try_for_each(|number| check_number(rules, plan, number))
}

fn check_number(rules: &ReaderRules, plan: &Plan, number: usize) -> Result<(), Refusal> {
    match number {
        REFUSED_HORIZON => {
            horizon(plan.horizon).or_else(|refusal| match is_tried(rules, refusal.cause) {
                true => Err(refusal),
                false => Ok(()),
            })
        }
        REFUSED_INTEGRATOR => check_entries(rules, &plan.integrators, |_, entry| {
            integrator(rules, entry)
        }),
        REFUSED_INPUT => check_entries(rules, &plan.inputs, |_, &first| input(rules, first)),
        REFUSED_NODE => check_entries(rules, &plan.nodes, |number, entry| {
            node(rules, entry, plan.node_source(number))
        }),
        REFUSED_LINK => check_links(rules, plan),
        _ => check_commands(rules, plan),
    }
}

fn check_links(rules: &ReaderRules, plan: &Plan) -> Result<(), Refusal> {
    let limits = |entry: &Link| link(rules, entry, plan);
    let key = |link: &Link| (link.target, link.source);
    let causes = [Cause::LinkRepeats, Cause::LinkDescends];
    check_ascending(rules, &plan.links, limits, key, causes)
}

fn check_commands(rules: &ReaderRules, plan: &Plan) -> Result<(), Refusal> {
    let limits = |entry: &Command| command(rules, entry, plan);
    let key = |command: &Command| (command.tick, command.input);
    let causes = [Cause::CommandRepeats, Cause::CommandDescends];
    check_ascending(rules, &plan.commands, limits, key, causes)
}

fn is_tried(rules: &ReaderRules, cause: Cause) -> bool {
    rules.skipped != Some(cause)
}

/// Tries the entries upwards, so that the entry answered is the lowest.
fn check_entries<T>(
    rules: &ReaderRules,
    entries: &[T],
    fault: impl Fn(usize, &T) -> Option<Cause>,
) -> Result<(), Refusal> {
    let mut faults = entries.iter().enumerate().filter_map(|(number, item)| {
        let cause = fault(number, item).filter(|cause| is_tried(rules, *cause))?;
        let entry = (rules.entry)(cause, number);
        Some(Refusal { cause, entry })
    });
    (rules.answered)(&mut faults).map_or(Ok(()), Err)
}

/// Tries the limits of an entry and its order before the next entry is looked at.
fn check_ascending<T, K: Ord>(
    rules: &ReaderRules,
    entries: &[T],
    limits: impl Fn(&T) -> Option<Cause>,
    key: impl Fn(&T) -> K,
    causes: [Cause; 2],
) -> Result<(), Refusal> {
    let order = |number| out_of_order(rules, entries, number, &key, causes);
    if rules.order_with_limits {
        return check_entries(rules, entries, |number, entry| {
            limits(entry).or_else(|| order(number))
        });
    }
    check_entries(rules, entries, |_, entry| limits(entry))?;
    check_entries(rules, entries, |number, _| order(number))
}

/// Refusal 4.
pub fn horizon(horizon: u32) -> Result<(), Refusal> {
    match horizon {
        0 => Err(Refusal::whole(Cause::HorizonZero)),
        1..=LARGEST_HORIZON => Ok(()),
        _ => Err(Refusal::whole(Cause::HorizonAbove)),
    }
}

fn integrator(rules: &ReaderRules, entry: &Integrator) -> Option<Cause> {
    if (rules.beyond)(entry.start, M) {
        Some(Cause::StartBeyond)
    } else if entry.quantum < 1 {
        Some(Cause::QuantumBelow)
    } else if entry.quantum > M {
        Some(Cause::QuantumAbove)
    } else {
        None
    }
}

fn input(rules: &ReaderRules, first: i64) -> Option<Cause> {
    (rules.beyond)(first, M).then_some(Cause::FirstValueBeyond)
}

/// A node may name the sources below its own: integrators, inputs and lower-numbered nodes.
fn node(rules: &ReaderRules, entry: &Node, own_source: usize) -> Option<Cause> {
    let sources_below = (rules.node_may_name)(own_source);
    if entry.kind > KIND_COMPARISON {
        return Some(Cause::KindAbove);
    }
    if entry.a >= sources_below {
        return Some(Cause::AOutOfPlace);
    }
    (rules.node_b)(entry, sources_below).or_else(|| node_limits(rules, entry))
}

/// lo and hi are 0 for kinds 0 and 1 and within ±M for 2 and 3; only kind 2 asks lo ≤ hi.
fn node_limits(rules: &ReaderRules, entry: &Node) -> Option<Cause> {
    match entry.kind {
        KIND_DIFFERENCE | KIND_PRODUCT if entry.low != 0 => Some(Cause::UnusedLowNotZero),
        KIND_DIFFERENCE | KIND_PRODUCT if entry.high != 0 => Some(Cause::UnusedHighNotZero),
        KIND_DIFFERENCE | KIND_PRODUCT => None,
        _ if (rules.beyond)(entry.low, M) => Some(Cause::LowBeyond),
        _ if (rules.beyond)(entry.high, M) => Some(Cause::HighBeyond),
        kind if (rules.limits_ordered)(kind) && entry.low > entry.high => Some(Cause::LowAboveHigh),
        _ => None,
    }
}

fn link(rules: &ReaderRules, entry: &Link, plan: &Plan) -> Option<Cause> {
    if entry.target >= plan.integrators.len() {
        Some(Cause::TargetOutOfPlace)
    } else if entry.source >= (rules.link_may_name)(plan) {
        Some(Cause::SourceOutOfPlace)
    } else if entry.coefficient == 0 {
        Some(Cause::CoefficientZero)
    } else if (rules.beyond)(entry.coefficient, LARGEST_COEFFICIENT) {
        Some(Cause::CoefficientBeyond)
    } else {
        None
    }
}

fn command(rules: &ReaderRules, entry: &Command, plan: &Plan) -> Option<Cause> {
    if entry.tick == 0 {
        Some(Cause::TickZero)
    } else if entry.tick > (rules.last_tick)(plan.horizon) {
        Some(Cause::TickAboveHorizon)
    } else if entry.input >= plan.inputs.len() {
        Some(Cause::InputOutOfPlace)
    } else if (rules.beyond)(entry.value, M) {
        Some(Cause::ValueBeyond)
    } else {
        None
    }
}

/// "an order fault is the later entry's": an entry is compared with the one before it.
fn out_of_order<T, K: Ord>(
    rules: &ReaderRules,
    entries: &[T],
    number: usize,
    key: impl Fn(&T) -> K,
    [repeats, descends]: [Cause; 2],
) -> Option<Cause> {
    let before = entries.get(number.checked_sub(1)?)?;
    let compared = key(before).cmp(&key(&entries[number]));
    if (rules.may_follow)(compared) {
        return None;
    }
    Some(match compared {
        Ordering::Equal => repeats,
        _ => descends,
    })
}
