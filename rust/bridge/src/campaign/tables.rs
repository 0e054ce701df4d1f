//! The tables that a run works out once, against document 01's words followed one by one.

use super::variables::number;
use super::{Machine, Outcome};
use crate::state::{State, Tables};
use cup_check::generate::changes::change_fields;
use cup_check::generate::{Family, Fill, Rng};
use cup_check::limits::KIND_LIMIT;
use cup_check::met::Met;
use cup_check::plain::values::of_all_sources;
use cup_check::plan::Plan;
use cup_check::raw::RawState;
use cup_check::sound::is_sound;

/// States that the gate compares at least.
pub const STATES: u64 = 10_000;

/// How often each has to be met.
const ENOUGH: u64 = 1_000;

/// The bit of the first node.
const FIRST_NODE_BIT: usize = 32;

/// What to compare on.
#[derive(Clone, Copy, Debug)]
pub struct Campaign {
    /// How many states.
    pub states: u64,
    /// Where they start from.
    pub seed: u64,
}

impl Campaign {
    /// A campaign by the variables CUP_TABLES and CUP_SEED, or the gate's without them.
    pub fn by_variables() -> Campaign {
        Campaign {
            states: number("CUP_TABLES", STATES),
            seed: number("CUP_SEED", 0),
        }
    }

    /// Compares a machine's tables with those worked out here.
    pub fn run(&self, machine: &dyn Machine) -> Outcome {
        let mut outcome = Outcome::new(required());
        let first = Rng::new(self.seed).bits();
        for number in 0..self.states {
            let mut rng = Rng::new(first.wrapping_add(number));
            let family = Family::ALL[number as usize % Family::ALL.len()];
            let plan = family.plan(&mut rng);
            let found = compare(machine, &mut rng, &plan, &mut outcome.met);
            let seed = self.seed;
            let described = |what| format!("state {number} of seed {seed}: {what}");
            if outcome.add_difference(found.err().map(described)) {
                break;
            }
        }
        outcome
    }
}

/// `Err` describes the first difference.
fn compare(machine: &dyn Machine, rng: &mut Rng, plan: &Plan, met: &mut Met) -> Result<(), String> {
    let mut state = rng.pick(&Fill::ALL).state(rng, plan);
    let right = tables(&state, plan);
    same(&machine.tables(&State::from(&state)), &right)?;
    count(met, plan, &right);
    while is_sound(&state) {
        change_fields(rng, &mut state);
    }
    met.count(UNSOUND);
    same(&machine.tables(&State::from(&state)), &Tables::NONE)
        .map_err(|what| format!("not sound, {what}"))
}

fn same(found: &Tables, right: &Tables) -> Result<(), String> {
    let wrong = |what: &str, found: &[u64], right: &[u64]| {
        let place = (0..right.len()).find(|&place| found[place] != right[place])?;
        let (found, right) = (found[place] as i64, right[place] as i64);
        Some(format!("{what}[{place}] {found:#x}, not {right:#x}"))
    };
    let words = |entries: &[usize]| {
        entries
            .iter()
            .map(|&entry| entry as u64)
            .collect::<Vec<u64>>()
    };
    let bits = |entries: &[i64]| {
        entries
            .iter()
            .map(|&entry| entry as u64)
            .collect::<Vec<u64>>()
    };
    let ranges = wrong("ranges", &words(&found.ranges), &words(&right.ranges));
    let reach = || wrong("reach", &found.reach, &right.reach);
    let values = || wrong("values", &bits(&found.values), &bits(&right.values));
    match ranges.or_else(reach).or_else(values) {
        Some(difference) => Err(difference),
        None => Ok(()),
    }
}

/// The tables of a sound state.
fn tables(state: &RawState, plan: &Plan) -> Tables {
    let mut tables = Tables::NONE;
    let (n, m) = (plan.integrators.len(), plan.inputs.len());
    for (i, range) in tables.ranges.iter_mut().enumerate().take(n + 1) {
        *range = plan.links.iter().filter(|link| link.target < i).count();
    }
    let values = of_all_sources(plan, &state.run.q[..n], &state.run.inputs[..m]);
    for (source, value) in values.into_iter().enumerate() {
        tables.values[source] = value;
        tables.reach[source] = reach(plan, source);
    }
    tables
}

/// "An integrator is reached if a link of its own names a due integrator, a commanded input, or a
/// node that depends on one".
fn reach(plan: &Plan, changed: usize) -> u64 {
    let named = plan
        .links
        .iter()
        .filter(|link| follows(plan, link.source, changed));
    let integrators = named.map(|link| link.target);
    let nodes = (0..plan.nodes.len()).filter(|&j| follows(plan, plan.node_source(j), changed));
    let bits = integrators.chain(nodes.map(|j| FIRST_NODE_BIT + j));
    bits.fold(0, |mask, bit| mask | 1 << bit)
}

/// Whether a source is the changed one or a node that depends on it; "dependence is followed down
/// through lower-numbered nodes".
fn follows(plan: &Plan, source: usize, changed: usize) -> bool {
    if source == changed {
        return true;
    }
    let Some(node) = source
        .checked_sub(plan.node_source(0))
        .and_then(|number| plan.nodes.get(number))
    else {
        return false;
    };
    follows(plan, node.a, changed) || node.kind != KIND_LIMIT && follows(plan, node.b, changed)
}

/// What has to be met.
fn required() -> Met {
    let mut met = Met::default();
    met.require("states", STATES);
    met.require_each([UNSOUND, BY_LINK, BY_NODES, DEEP, WITHOUT_LINKS], ENOUGH);
    met
}

const UNSOUND: &str = "not sound";
/// Integrators that a source reaches by a link that names it.
const BY_LINK: &str = "integrators reached by a link";
/// Integrators that it reaches by nodes alone.
const BY_NODES: &str = "integrators reached by nodes alone";
/// Nodes that depend on a source by another node.
const DEEP: &str = "nodes that depend by another node";
const WITHOUT_LINKS: &str = "integrators without links";

fn count(met: &mut Met, plan: &Plan, tables: &Tables) {
    met.count("states");
    for changed in 0..plan.sources() {
        let reached = tables.reach[changed];
        let links = plan.links.iter().filter(|link| link.source == changed);
        let by_link = links.fold(0_u64, |mask, link| mask | 1 << link.target);
        let by_nodes = reached as u32 & !(by_link as u32);
        met.add(BY_LINK, by_link.count_ones().into());
        met.add(BY_NODES, by_nodes.count_ones().into());
        let named = |j: &usize| {
            let node = &plan.nodes[*j];
            node.a == changed || node.kind != KIND_LIMIT && node.b == changed
        };
        let beside = (0..plan.nodes.len()).filter(named).count() as u32;
        let own = u32::from(changed >= plan.node_source(0));
        let deep = (reached >> FIRST_NODE_BIT).count_ones() - beside - own;
        met.add(DEEP, deep.into());
    }
    let linked = |i: &usize| plan.links.iter().any(|link| link.target == *i);
    let integrators = 0..plan.integrators.len();
    let without = integrators.filter(|i| !linked(i)).count();
    met.add(WITHOUT_LINKS, without as u64);
}
