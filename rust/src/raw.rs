//! The state as structs of fixed arrays, the shape in which a caller may fill one by hand.
//!
//! Nothing here is trusted: counts may be any number and entries may hold any value. Unused
//! entries are 0, also unused due ticks.

use crate::engine::State;
use crate::limits::{Section, SECTIONS};
use crate::limits::{COMMANDS, INPUTS, INTEGRATORS, LINKS, NODES};
use crate::plan::{Command, Integrator, Link, Node, Plan};

/// How many entries each section of a plan has.
#[derive(Clone, Copy, Debug, PartialEq, Eq)]
#[allow(missing_docs)] // The fields carry document 01's names.
pub struct RawCounts {
    pub n: usize,
    pub m: usize,
    pub k: usize,
    pub links: usize,
    pub commands: usize,
}

/// Starts and quanta.
#[derive(Clone, Debug, PartialEq, Eq)]
#[allow(missing_docs)]
pub struct RawIntegrators {
    pub starts: [i64; INTEGRATORS],
    pub quanta: [i64; INTEGRATORS],
}

/// First values.
#[derive(Clone, Debug, PartialEq, Eq)]
#[allow(missing_docs)]
pub struct RawInputs {
    pub firsts: [i64; INPUTS],
}

/// Static functions; `a` and `b` are source numbers.
#[derive(Clone, Debug, PartialEq, Eq)]
#[allow(missing_docs)]
pub struct RawNodes {
    pub kinds: [usize; NODES],
    pub a: [usize; NODES],
    pub b: [usize; NODES],
    pub lows: [i64; NODES],
    pub highs: [i64; NODES],
}

/// Terms of the rates; `targets` are integrators, `sources` source numbers.
#[derive(Clone, Debug, PartialEq, Eq)]
#[allow(missing_docs)]
pub struct RawLinks {
    pub targets: [usize; LINKS],
    pub sources: [usize; LINKS],
    pub coefficients: [i64; LINKS],
}

/// Values that inputs take later; `inputs` are input numbers, counted from 0.
#[derive(Clone, Debug, PartialEq, Eq)]
#[allow(missing_docs)]
pub struct RawCommands {
    pub ticks: [u32; COMMANDS],
    pub inputs: [usize; COMMANDS],
    pub values: [i64; COMMANDS],
}

/// A plan: its horizon, its counts and a struct of arrays for each section.
#[derive(Clone, Debug, PartialEq, Eq)]
#[allow(missing_docs)]
pub struct RawPlan {
    pub horizon: u32,
    pub counts: RawCounts,
    pub integrators: RawIntegrators,
    pub inputs: RawInputs,
    pub nodes: RawNodes,
    pub links: RawLinks,
    pub commands: RawCommands,
}

/// The clock, the next command and the counts of a run.
#[derive(Clone, Copy, Debug, PartialEq, Eq)]
#[allow(missing_docs)]
pub struct RawClocks {
    pub clock: u32,
    pub next: usize,
    pub instants: u64,
    pub updates: u64,
}

/// The running part of a state; `d` holds [`crate::limits::NEVER`] for an integrator never due.
#[derive(Clone, Debug, PartialEq, Eq)]
#[allow(missing_docs)] // The fields carry document 01's names.
pub struct RawRunning {
    pub x: [i64; INTEGRATORS],
    pub q: [i64; INTEGRATORS],
    pub s: [i64; INTEGRATORS],
    pub l: [u32; INTEGRATORS],
    pub d: [u32; INTEGRATORS],
    pub inputs: [i64; INPUTS],
    pub clocks: RawClocks,
}

/// A plan and how far it has run.
#[derive(Clone, Debug, PartialEq, Eq)]
#[allow(missing_docs)]
pub struct RawState {
    pub plan: RawPlan,
    pub run: RawRunning,
}

impl RawState {
    /// "Idle is the start of one integrator (start 0, quantum 1), nothing else, horizon 1."
    pub fn idle() -> RawState {
        RawState::from(&State::start(State::idle_plan()))
    }

    /// The state that a plan starts with; the plan has to keep the rules.
    pub fn start(plan: &Plan) -> RawState {
        RawState::from(&State::start(plan.clone()))
    }
}

impl RawCounts {
    /// The counts in file order, as [`Section::ALL`] has the sections.
    pub fn by_section(self) -> [usize; SECTIONS] {
        [self.n, self.m, self.k, self.links, self.commands]
    }

    /// The same from such a list.
    pub fn of_sections([n, m, k, links, commands]: [usize; SECTIONS]) -> RawCounts {
        RawCounts {
            n,
            m,
            k,
            links,
            commands,
        }
    }

    /// The most events of one instant, for counts that fit: one for each integrator and each input.
    pub fn events_per_instant(self) -> usize {
        self.n + self.m
    }

    /// Whether every count is at most its section's limit, so that the arrays hold the entries.
    pub fn fit(self) -> bool {
        let mut counts = Section::ALL.into_iter().zip(self.by_section());
        counts.all(|(section, count)| count <= section.most())
    }
}

impl RawPlan {
    /// The plan as lists, if the counts fit. It may break any rule of its entries.
    pub fn to_plan(&self) -> Option<Plan> {
        let RawCounts {
            n,
            m,
            k,
            links,
            commands,
        } = self.counts;
        self.counts.fit().then(|| Plan {
            horizon: self.horizon,
            integrators: (0..n)
                .map(|number| self.integrators.entry(number))
                .collect(),
            inputs: self.inputs.firsts[..m].to_vec(),
            nodes: (0..k).map(|number| self.nodes.entry(number)).collect(),
            links: (0..links).map(|number| self.links.entry(number)).collect(),
            commands: (0..commands)
                .map(|number| self.commands.entry(number))
                .collect(),
        })
    }
}

impl RawIntegrators {
    pub(crate) fn entry(&self, number: usize) -> Integrator {
        Integrator {
            start: self.starts[number],
            quantum: self.quanta[number],
        }
    }
}

impl RawNodes {
    pub(crate) fn entry(&self, number: usize) -> Node {
        Node {
            kind: self.kinds[number],
            a: self.a[number],
            b: self.b[number],
            low: self.lows[number],
            high: self.highs[number],
        }
    }
}

impl RawLinks {
    pub(crate) fn entry(&self, number: usize) -> Link {
        Link {
            target: self.targets[number],
            source: self.sources[number],
            coefficient: self.coefficients[number],
        }
    }
}

impl RawCommands {
    pub(crate) fn entry(&self, number: usize) -> Command {
        Command {
            tick: self.ticks[number],
            input: self.inputs[number],
            value: self.values[number],
        }
    }
}

/// A list in the front of an array whose other entries are 0. The list must fit.
fn padded<T, F: Copy + Default, const N: usize>(list: &[T], field: impl Fn(&T) -> F) -> [F; N] {
    let mut array = [F::default(); N];
    for (place, entry) in array.iter_mut().zip(list) {
        *place = field(entry);
    }
    array
}

impl From<&Plan> for RawPlan {
    fn from(plan: &Plan) -> RawPlan {
        RawPlan {
            horizon: plan.horizon,
            counts: RawCounts {
                n: plan.integrators.len(),
                m: plan.inputs.len(),
                k: plan.nodes.len(),
                links: plan.links.len(),
                commands: plan.commands.len(),
            },
            integrators: RawIntegrators {
                starts: padded(&plan.integrators, |entry| entry.start),
                quanta: padded(&plan.integrators, |entry| entry.quantum),
            },
            inputs: RawInputs {
                firsts: padded(&plan.inputs, |&first| first),
            },
            nodes: RawNodes {
                kinds: padded(&plan.nodes, |entry| entry.kind),
                a: padded(&plan.nodes, |entry| entry.a),
                b: padded(&plan.nodes, |entry| entry.b),
                lows: padded(&plan.nodes, |entry| entry.low),
                highs: padded(&plan.nodes, |entry| entry.high),
            },
            links: RawLinks {
                targets: padded(&plan.links, |entry| entry.target),
                sources: padded(&plan.links, |entry| entry.source),
                coefficients: padded(&plan.links, |entry| entry.coefficient),
            },
            commands: RawCommands {
                ticks: padded(&plan.commands, |entry| entry.tick),
                inputs: padded(&plan.commands, |entry| entry.input),
                values: padded(&plan.commands, |entry| entry.value),
            },
        }
    }
}

impl From<&State> for RawState {
    fn from(state: &State) -> RawState {
        RawState {
            plan: RawPlan::from(&state.plan),
            run: RawRunning {
                x: padded(&state.integrators, |integrator| integrator.x),
                q: padded(&state.integrators, |integrator| integrator.q),
                s: padded(&state.integrators, |integrator| integrator.s),
                l: padded(&state.integrators, |integrator| integrator.l),
                d: padded(&state.integrators, |integrator| integrator.d),
                inputs: padded(&state.inputs, |&value| value),
                clocks: RawClocks {
                    clock: state.clock,
                    next: state.next,
                    instants: state.instants,
                    updates: state.updates,
                },
            },
        }
    }
}
