//! What the campaign over lists counts, and how often it has to be met.

use super::LISTS;
use crate::campaign::signs::SIGNS;
use cup_check::compare::counts::{LAZILY_MOVED, STATUSES};
use cup_check::compare::Called;
use cup_check::engine::Engine;
use cup_check::generate::{Call, Family, Fill};
use cup_check::limits::{
    Section, EVENT_BYTES, FINISHED, INTEGRATORS, KIND_LIMIT, LARGEST_BUDGET, LISTING_BUDGET, NODES,
    RANGE,
};
use cup_check::met::Met;
use cup_check::plan::Plan;
use cup_check::raw::{RawPlan, RawState};

/// How often each has to be met.
const ENOUGH: u64 = 300;

/// How many instants there have to be in all, and in the longest list.
const ENOUGH_INSTANTS: u64 = 1_000_000;
const LONGEST_LIST_AT_LEAST: u64 = 10_000;

/// What the comparison counts over lists, of which each has to be met often enough.
const COMPARED: [&str; 15] = [
    "decline 11",
    "decline 12",
    "decline 14",
    "lists of more than 1,000 instants",
    "accepted, no instant",
    "several due",
    "several commands",
    "due and commanded",
    "repeated values",
    "reached, not due",
    "clipped nodes",
    "at the horizon",
    "events at the bound",
    "range above the lowest due",
    "range that bars commands",
];

/// What has to be met.
pub fn required() -> Met {
    let mut met = Met::default();
    met.require_each(["lists", "run calls"], LISTS);
    met.require("instants", ENOUGH_INSTANTS);
    met.require("instants in the longest list", LONGEST_LIST_AT_LEAST);
    met.require_each(Family::ALL.map(family_of), ENOUGH);
    met.require_each(Fill::ALL.map(|fill| start_of(Some(fill))), ENOUGH);
    met.require(start_of(None), ENOUGH);
    met.require_each(STATUSES, ENOUGH);
    met.require(UNSOUND, ENOUGH);
    met.require_each(COMPARED, ENOUGH);
    met.require("due ticks above 2^31", ENOUGH);
    met.require(OTHER_LISTS, ENOUGH);
    met.require_each(Engine::BOTH.map(instants_of), ENOUGH);
    met.require_each(Engine::BOTH.map(lists_of_one), ENOUGH);
    met.require(LISTS_OF_BOTH, ENOUGH);
    met.require(TO_AND_FRO, ENOUGH);
    met.require_each(NEVER_STARTED, ENOUGH);
    met.require_each(LAZILY_MOVED, ENOUGH);
    met.require_each(BUDGETS, ENOUGH);
    met.require_each(BUFFERS, ENOUGH);
    met.require_each(SHAPES, ENOUGH);
    met.require_each(SIGNS, ENOUGH);
    met
}

/// Unsound states handed to runs, position and the plan writer between calls.
pub const UNSOUND: &str = "decline 10";
/// Lists of other plans between calls.
pub const OTHER_LISTS: &str = "lists of other plans in between";

/// The count of the instants that an engine's calls took.
fn instants_of(engine: Engine) -> &'static str {
    match engine {
        Engine::Lazy => "instants of lazy calls",
        Engine::Eager => "instants of eager calls",
    }
}

/// The count of the lists whose instants were all by one engine.
fn lists_of_one(engine: Engine) -> &'static str {
    match engine {
        Engine::Lazy => "lists of lazy instants alone",
        Engine::Eager => "lists of eager instants alone",
    }
}

/// Lists with instants by both engines. Lists without instants are not counted.
const LISTS_OF_BOTH: &str = "lists of both";

/// Lists that went from one engine to the other several times.
const TO_AND_FRO: &str = "lists of both, to and fro";

/// Accepted calls at clock 0 that answer finished, and range, without an instant.
const NEVER_STARTED: [&str; 2] = [
    "finished before the first instant",
    "barred before the first instant",
];

/// The shapes of plans.
const SHAPES: [&str; 8] = [
    "no inputs",
    "no nodes",
    "no links",
    "no commands",
    "integrators alone",
    "32 integrators",
    "every section full",
    "16 nodes in one chain",
];

fn family_of(family: Family) -> String {
    format!("family {family:?}")
}

/// Where a list starts: loaded, or filled by hand in some way.
fn start_of(fill: Option<Fill>) -> String {
    fill.map_or("start Loaded".to_string(), |fill| format!("start {fill:?}"))
}

/// Counts a list's plan, and where the list starts.
pub fn count_plan(met: &mut Met, family: Family, fill: Option<Fill>, plan: &Plan) {
    met.count(family_of(family));
    met.count(start_of(fill));
    let counts = RawPlan::from(plan).counts;
    let [n, m, k, links, commands] = counts.by_section();
    let has = [
        m == 0,
        k == 0,
        links == 0,
        commands == 0,
        m + k + links + commands == 0,
        n == INTEGRATORS,
        counts.by_section() == Section::ALL.map(Section::most),
        longest_chain(plan) == NODES,
    ];
    for (shape, has) in SHAPES.into_iter().zip(has) {
        met.count_if(has, shape);
    }
}

/// The most nodes that name one another in one chain.
fn longest_chain(plan: &Plan) -> usize {
    let mut chains: Vec<usize> = Vec::new();
    for node in &plan.nodes {
        let first = plan.node_source(0);
        let below = |source: usize| source.checked_sub(first).map_or(0, |node| chains[node]);
        let of_b = if node.kind == KIND_LIMIT {
            0
        } else {
            below(node.b)
        };
        chains.push(1 + below(node.a).max(of_b));
    }
    chains.into_iter().max().unwrap_or(0)
}

/// The classes of budgets.
const BUDGETS: [&str; 9] = [
    "budget 0",
    "budget 1",
    "budget 2 to 63",
    "budget 64",
    "budget 65 to 1,023",
    "budget 1,024",
    "budget 1,025",
    "budget above",
    "budget 2^64 − 1",
];

fn budget_class(budget: u64) -> usize {
    const ONE_ABOVE: u64 = LARGEST_BUDGET + 1;
    match budget {
        0 => 0,
        1 => 1,
        2..LISTING_BUDGET => 2,
        LISTING_BUDGET => 3,
        LARGEST_BUDGET => 5,
        ONE_ABOVE => 6,
        u64::MAX => 8,
        _ if budget < LARGEST_BUDGET => 4,
        _ => 7,
    }
}

/// The classes of buffers.
const BUFFERS: [&str; 7] = [
    "buffer exactly long enough",
    "buffer longer",
    "buffer one byte short",
    "buffer shorter",
    "buffer empty, and too short",
    "buffer empty, for no instant",
    "buffer that would do, budget above",
];

/// The class of a call's buffer; none for a budget above 1,024 whose buffer would not do for it.
fn buffer_class(call: &Call, state: &RawState) -> Option<usize> {
    let instant_bytes = state.plan.counts.events_per_instant() * EVENT_BYTES;
    let asked = u128::from(call.budget) * instant_bytes as u128;
    let length = call.buffer as u128;
    if call.budget > LARGEST_BUDGET {
        return (length >= asked).then_some(6);
    }
    Some(match length {
        0 if asked == 0 => 5,
        0 => 4,
        _ if length == asked => 0,
        _ if length > asked => 1,
        _ if length + 1 == asked => 2,
        _ => 3,
    })
}

/// Counts a call of a list.
pub fn count_call(met: &mut Met, called: &Called) {
    let call = called.call;
    met.count("run calls");
    met.count(BUDGETS[budget_class(call.budget)]);
    if let Some(class) = buffer_class(call, called.before) {
        met.count(BUFFERS[class]);
    }
    let at_start = called.before.run.clocks.clock == 0 && called.instants == 0;
    match called.ran.status {
        status @ FINISHED..=RANGE if at_start => met.count(NEVER_STARTED[status - FINISHED]),
        _ => (),
    }
    met.add(instants_of(call.engine), called.instants);
}

/// Counts a list by the engines of its calls that took instants.
pub fn count_engines(met: &mut Met, engines: &[Engine]) {
    let has = |engine| engines.contains(&engine);
    match (has(Engine::Lazy), has(Engine::Eager)) {
        (true, false) => met.count(lists_of_one(Engine::Lazy)),
        (false, true) => met.count(lists_of_one(Engine::Eager)),
        (true, true) => met.count(LISTS_OF_BOTH),
        (false, false) => (),
    }
    let changes = engines.windows(2).filter(|pair| pair[0] != pair[1]);
    met.count_if(changes.count() > 1, TO_AND_FRO);
}
