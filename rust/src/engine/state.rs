//! The state of the engines and what can be read from it without an instant.

use super::rules::Rules;
use crate::limits::NEVER;
use crate::plan::Plan;

/// What is kept for one integrator, under document 01's letters.
#[derive(Clone, Copy, Debug, PartialEq, Eq)]
pub struct IntegratorState {
    /// Position at tick l.
    pub x: i64,
    /// Output.
    pub q: i64,
    /// Slope.
    pub s: i64,
    /// Last-moved tick.
    pub l: u32,
    /// Due tick, or [`NEVER`].
    pub d: u32,
}

impl IntegratorState {
    /// x + s × (t − l). The tick must not lie before l.
    pub fn position_at(&self, tick: u32) -> i128 {
        i128::from(self.x) + i128::from(self.s) * i128::from(tick - self.l)
    }
}

/// A plan under way.
#[derive(Clone, Debug, PartialEq, Eq)]
pub struct State {
    /// The plan.
    pub plan: Plan,
    /// What is kept for each integrator.
    pub integrators: Vec<IntegratorState>,
    /// The value of each input.
    pub inputs: Vec<i64>,
    /// c.
    pub clock: u32,
    /// The next command.
    pub next: usize,
    /// Instants taken.
    pub instants: u64,
    /// Integrators moved, over all instants.
    pub updates: u64,
}

impl State {
    /// Start, for a plan that keeps the rules.
    pub fn start(plan: Plan) -> State {
        let at_rest = |start| IntegratorState {
            x: start,
            q: start,
            s: 0,
            l: 0,
            d: NEVER,
        };
        let starts = plan.integrators.iter().map(|entry| entry.start);
        let mut state = State {
            integrators: starts.map(at_rest).collect(),
            inputs: plan.inputs.clone(),
            clock: 0,
            next: 0,
            instants: 0,
            updates: 0,
            plan,
        };
        let values = state.source_values(&state.outputs(), &Rules::DOCUMENT);
        for number in 0..state.integrators.len() {
            state.set_slope_and_due(number, &values, &Rules::DOCUMENT);
        }
        state
    }

    /// The plan of the idle state: "one integrator (start 0, quantum 1), nothing else, horizon 1".
    pub fn idle_plan() -> Plan {
        Plan::new(1).integrator(0, 1)
    }

    /// The outputs of all integrators.
    pub fn outputs(&self) -> Vec<i64> {
        self.integrators
            .iter()
            .map(|integrator| integrator.q)
            .collect()
    }

    /// The values of all sources by number, with the given outputs for the integrators.
    pub fn source_values(&self, outputs: &[i64], rules: &Rules) -> Vec<i128> {
        let mut values = Vec::with_capacity(self.plan.sources());
        values.extend(outputs.iter().map(|&q| i128::from(q)));
        values.extend(self.inputs.iter().map(|&value| i128::from(value)));
        for node in &self.plan.nodes {
            // Kind 2 has B = 0, which is a source, so that looking it up does no harm.
            values.push((rules.node)(node, values[node.a], values[node.b]));
        }
        values
    }

    /// The slope of an integrator by the Rate rule. Its links lie side by side in the plan.
    pub fn slope(&self, number: usize, values: &[i128], rules: &Rules) -> i128 {
        let links = &self.plan.links;
        let from = links.partition_point(|link| link.target < number);
        let own = links[from..]
            .iter()
            .take_while(|link| link.target == number);
        (rules.slope)(
            own.map(|link| i128::from(link.coefficient) * values[link.source])
                .sum(),
        )
    }

    /// The due tick of an integrator by the Due rule from its x, q and l and the slope given;
    /// `None` is never.
    pub fn due_tick(&self, number: usize, slope: i128, rules: &Rules) -> Option<i128> {
        let integrator = &self.integrators[number];
        let quantum = i128::from(self.plan.integrators[number].quantum);
        let (x, q) = (i128::from(integrator.x), i128::from(integrator.q));
        let ticks = (rules.ticks_to_level)(x, q, quantum, slope)?;
        Some(i128::from(integrator.l) + ticks)
    }

    /// Gives an integrator that was moved "the new slope and due tick".
    pub fn set_slope_and_due(&mut self, number: usize, values: &[i128], rules: &Rules) {
        let slope = self.slope(number, values, rules);
        let due = self.due_tick(number, slope, rules);
        let integrator = &mut self.integrators[number];
        integrator.s = i64::try_from(slope).expect("a slope is below 2^44");
        integrator.d = due.map_or(NEVER, |tick| {
            u32::try_from(tick).expect("a due tick is below 2^32")
        });
    }
}
