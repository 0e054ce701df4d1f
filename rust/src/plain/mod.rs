//! The plain machine: document 01's rules "with every integrator moved at each instant and no
//! update count".
//!
//! It is naive on purpose. Every instant moves every integrator, works out every node and every
//! slope anew and looks for every due tick from the words of the Due rule. Nothing is kept that
//! could be worked out, and nothing is shared with the engines but the names of the two.

pub mod due;
pub mod event;
pub mod observer;
pub mod values;

pub use event::Event;
pub use observer::Observer;

use crate::limits::M;
use crate::plan::{Command, Plan};
use crate::status::Status;

/// The plain machine between two instants; every position is the one at the clock.
#[derive(Clone, Debug, PartialEq, Eq)]
pub struct Plain<'p> {
    /// The plan it was fed.
    pub plan: &'p Plan,
    /// x of each integrator, at the clock.
    pub positions: Vec<i64>,
    /// q of each integrator.
    pub outputs: Vec<i64>,
    /// s of each integrator.
    pub slopes: Vec<i64>,
    /// d of each integrator; `None` is never.
    pub dues: Vec<Option<u64>>,
    /// The value of each input.
    pub inputs: Vec<i64>,
    /// c.
    pub clock: u64,
    /// The first command with a tick above the clock, or the command count.
    pub next_command: usize,
    /// Instants taken.
    pub instants: u64,
    /// The events of the instants taken here, in order.
    pub events: Vec<Event>,
}

/// What happened in one instant, for observers.
#[derive(Clone, Debug, PartialEq, Eq)]
pub struct TakenInstant {
    /// t.
    pub tick: u64,
    /// The due integrators.
    pub due: Vec<usize>,
    /// The commanded inputs, counted from 0.
    pub commanded: Vec<usize>,
    /// How many of the commands repeated the value that the input already had.
    pub repeated: usize,
    /// How many nodes of kind 0, 1 or 2 had their value cut to a limit.
    pub clipped: usize,
}

/// A moment from which a plain machine can be continued.
#[derive(Clone, Debug, PartialEq, Eq)]
pub struct Moment {
    /// x of each integrator, at the clock.
    pub positions: Vec<i64>,
    /// q of each integrator.
    pub outputs: Vec<i64>,
    /// The value of each input.
    pub inputs: Vec<i64>,
    /// c.
    pub clock: u64,
    /// Instants taken so far.
    pub instants: u64,
}

impl<'p> Plain<'p> {
    /// Start: "x = q = start, l = c = 0, slopes and dues by rule, counts 0".
    pub fn start(plan: &'p Plan) -> Plain<'p> {
        let starts: Vec<i64> = plan.integrators.iter().map(|entry| entry.start).collect();
        let moment = Moment {
            positions: starts.clone(),
            outputs: starts,
            inputs: plan.inputs.clone(),
            clock: 0,
            instants: 0,
        };
        Plain::continued(plan, moment)
    }

    /// The machine from a moment on, which need not be one that it reaches by itself.
    pub fn continued(plan: &'p Plan, moment: Moment) -> Plain<'p> {
        let count = plan.integrators.len();
        let mut machine = Plain {
            plan,
            positions: moment.positions,
            outputs: moment.outputs,
            slopes: vec![0; count],
            dues: vec![None; count],
            inputs: moment.inputs,
            clock: moment.clock,
            next_command: 0,
            instants: moment.instants,
            events: Vec::new(),
        };
        machine.recompute();
        machine
    }

    /// Takes `budget` instants, "or fewer if its status is first 1 or 2".
    pub fn run(&mut self, budget: u128) {
        self.run_observed(budget, |_| {});
    }

    /// The same, telling an observer about each instant.
    pub fn run_observed(&mut self, budget: u128, mut observe: impl FnMut(&TakenInstant)) {
        let mut left = budget;
        while left > 0 && self.status() == Status::Paused {
            observe(&self.take_instant());
            left -= 1;
        }
    }

    /// The status of this moment.
    pub fn status(&self) -> Status {
        match self.next_instant() {
            None => Status::Finished,
            Some(tick) if tick > u64::from(self.plan.horizon) => Status::Finished,
            Some(tick) => self.range_status(tick),
        }
    }

    /// "Next instant t: the least of all d and the next command's tick"; `None` is never.
    pub fn next_instant(&self) -> Option<u64> {
        let command = self.plan.commands.get(self.next_command);
        let command_tick = command.map(|command| u64::from(command.tick));
        self.dues
            .iter()
            .copied()
            .flatten()
            .chain(command_tick)
            .min()
    }

    /// The events so far as the bytes that a run writes.
    pub fn event_bytes(&self) -> Vec<u8> {
        self.events.iter().flat_map(Event::bytes).collect()
    }

    /// Range names the lowest due integrator whose value is beyond ±M, not the lowest due.
    fn range_status(&self, tick: u64) -> Status {
        let barring = |&i: &usize| self.position_at(i, tick).abs() > M;
        match self.due_at(tick).into_iter().find(barring) {
            Some(integrator) => Status::Range(integrator),
            None => Status::Paused,
        }
    }

    fn due_at(&self, tick: u64) -> Vec<usize> {
        let count = self.plan.integrators.len();
        (0..count).filter(|&i| self.dues[i] == Some(tick)).collect()
    }

    fn position_at(&self, integrator: usize, tick: u64) -> i64 {
        let elapsed = i64::try_from(tick - self.clock).expect("ticks fit 32 bits");
        self.positions[integrator] + self.slopes[integrator] * elapsed
    }

    fn take_instant(&mut self) -> TakenInstant {
        let tick = self.next_instant().expect("a paused machine has one");
        let due = self.due_at(tick);
        // The positions of step 5 go by the old slopes, so they can be taken first; step 1 then
        // makes x of a due integrator its output, and step 5 leaves x = q there.
        self.move_all_positions(tick);
        for &integrator in &due {
            self.outputs[integrator] = self.positions[integrator];
        }
        // Step 2.
        let (commanded, repeated) = self.obey_commands(tick);
        // Step 6.
        self.clock = tick;
        self.instants += 1;
        self.record_events(&due, &commanded);
        // Steps 3 and 5, after all outputs and inputs are set.
        let clipped = self.recompute();
        TakenInstant {
            tick,
            due,
            commanded,
            repeated,
            clipped,
        }
    }

    fn move_all_positions(&mut self, tick: u64) {
        let count = self.plan.integrators.len();
        self.positions = (0..count).map(|i| self.position_at(i, tick)).collect();
    }

    /// Answers the inputs commanded and how many kept their value.
    fn obey_commands(&mut self, tick: u64) -> (Vec<usize>, usize) {
        let mut commanded = Vec::new();
        let mut repeated = 0;
        for command in &self.plan.commands {
            if u64::from(command.tick) == tick {
                repeated += usize::from(self.inputs[command.input] == command.value);
                self.inputs[command.input] = command.value;
                commanded.push(command.input);
            }
        }
        (commanded, repeated)
    }

    /// "Due integrators and commanded inputs by ascending source number."
    fn record_events(&mut self, due: &[usize], commanded: &[usize]) {
        let mut events: Vec<Event> = Vec::new();
        for &input in commanded {
            events.push(Event {
                tick: self.clock,
                source: self.plan.input_source(input),
                value: self.inputs[input],
            });
        }
        for &integrator in due {
            events.push(Event {
                tick: self.clock,
                source: integrator,
                value: self.outputs[integrator],
            });
        }
        events.sort_by_key(|event| event.source);
        self.events.extend(events);
    }

    /// Everything that follows from positions, outputs, inputs and clock: the next command, and
    /// node values, slopes and dues of all integrators. Answers how many nodes were clipped.
    fn recompute(&mut self) -> usize {
        let plan = self.plan;
        let later = |command: &Command| u64::from(command.tick) > self.clock;
        let first_later = plan.commands.iter().position(later);
        self.next_command = first_later.unwrap_or(plan.commands.len());
        let values = values::of_all_sources(plan, &self.outputs, &self.inputs);
        for (i, integrator) in plan.integrators.iter().enumerate() {
            self.slopes[i] = values::slope(plan, i, &values);
            let ticks = due::ticks_to_level(
                self.positions[i],
                self.outputs[i],
                integrator.quantum,
                self.slopes[i],
            );
            self.dues[i] = ticks.map(|ticks| self.clock + ticks as u64);
        }
        values::clipped_nodes(plan, &values)
    }
}
