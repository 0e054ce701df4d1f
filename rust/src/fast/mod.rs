//! The calls written for speed, to time the proved ones against.
//!
//! They are made from document 01's rules and from nothing else, as someone would write them who
//! wants them fast and stays with safe Rust. The engines: all tables have a fixed size, an
//! integrator's figures lie side by side and so do its links, what a change of a source reaches is
//! one word of a table, due ticks lie in a row that is scanned, values are kept by source number,
//! and an instant touches only what it changes. The reader: one pass over the file, which tests an
//! entry and puts it in its place. All sums are in 64 bits, which the limits of document 01 leave
//! room for.
//!
//! There are two forms of the engines:
//!
//! - [`Fast`] has its tables worked out once and keeps them, and its figures, over all runs;
//! - [`run_lazy`] and [`run_eager`] work like the public calls: a state goes in and comes out, and
//!   the tables are worked out anew.
//!
//! [`load`], [`read`], [`section`], [`write`] and [`position`] work like the public calls too. None
//! of these tests whether its state is sound, which has to be so. [`sound`] does, as a call of its
//! own. No call becomes part of its caller's code, since those of a library do not either.

mod instant;
mod read;
mod rules;
mod sound;
mod start;
mod tables;
mod write;

pub use read::{read, section, Refused};
pub use sound::sound;
pub use start::load;
pub use write::write;

use crate::calls::{Positioned, Ran};
use crate::limits::{ACCEPTED, REFUSED_BUDGET, REFUSED_INTEGRATOR_NUMBER, REFUSED_RUN_BUFFER};
use crate::limits::{EVENT_BYTES, INTEGRATORS, LARGEST_BUDGET, NEVER};
use crate::raw::{RawClocks, RawRunning, RawState};
use crate::status::Status;
use tables::{Tables, Values};

/// What is kept for one integrator beside its output and its due tick.
#[derive(Clone, Copy, Debug, Default)]
struct IntegratorState {
    x: i64,
    s: i64,
    l: u32,
}

/// A plan's tables and how far it has run, kept over runs.
#[derive(Clone, Debug)]
pub struct Fast {
    tables: Tables,
    /// By source number: outputs, inputs and nodes.
    values: Values,
    integrators: [IntegratorState; INTEGRATORS],
    /// Due ticks; behind the last integrator never.
    dues: [u32; INTEGRATORS],
    clock: u32,
    next: usize,
    instants: u64,
    updates: u64,
}

/// What a run of [`Fast`] answers.
#[derive(Clone, Copy, Debug, PartialEq, Eq)]
pub struct Outcome {
    /// The status after the run.
    pub status: Status,
    /// Bytes written from the buffer's start.
    pub written: usize,
}

impl Fast {
    /// From a sound state.
    pub fn prepared(state: &RawState) -> Fast {
        let (plan, run) = (&state.plan, &state.run);
        let tables = Tables::of(plan);
        let mut fast = Fast {
            values: tables.values(&run.q, &run.inputs),
            integrators: [IntegratorState::default(); INTEGRATORS],
            dues: [NEVER; INTEGRATORS],
            clock: run.clocks.clock,
            next: run.clocks.next,
            instants: run.clocks.instants,
            updates: run.clocks.updates,
            tables,
        };
        for (i, integrator) in fast.integrators[..plan.counts.n].iter_mut().enumerate() {
            *integrator = IntegratorState {
                x: run.x[i],
                s: run.s[i],
                l: run.l[i],
            };
        }
        fast.dues[..plan.counts.n].copy_from_slice(&run.d[..plan.counts.n]);
        fast
    }

    /// Takes as many instants as the budget says, or fewer if the status is first 1 or 2. The buffer
    /// has to have room for their events.
    pub fn run(&mut self, budget: u64, buffer: &mut [u8]) -> Outcome {
        self.run_by::<false>(budget, buffer)
    }

    /// The same by the eager engine.
    pub fn run_eager(&mut self, budget: u64, buffer: &mut [u8]) -> Outcome {
        self.run_by::<true>(budget, buffer)
    }

    #[inline]
    fn run_by<const EAGER: bool>(&mut self, budget: u64, buffer: &mut [u8]) -> Outcome {
        let mut written = 0;
        let mut left = budget;
        loop {
            let (tick, due) = self.next_tick_and_due();
            let status = self.status(tick, due);
            if left == 0 || status != Status::Paused {
                return Outcome { status, written };
            }
            written = self.take::<EAGER>(tick, due, buffer, written);
            left -= 1;
        }
    }

    /// The running part of the state.
    pub fn running(&self) -> RawRunning {
        let (n, m) = (self.tables.n, self.tables.m);
        let mut run = RawRunning {
            x: self.integrators.map(|integrator| integrator.x),
            q: [0; INTEGRATORS],
            s: self.integrators.map(|integrator| integrator.s),
            l: self.integrators.map(|integrator| integrator.l),
            d: [0; INTEGRATORS],
            inputs: Default::default(),
            clocks: RawClocks {
                clock: self.clock,
                next: self.next,
                instants: self.instants,
                updates: self.updates,
            },
        };
        run.q[..n].copy_from_slice(&self.values[..n]);
        run.d[..n].copy_from_slice(&self.dues[..n]);
        run.inputs[..m].copy_from_slice(&self.values[n..n + m]);
        run
    }
}

/// The lazy run of a sound state, with declines 11 and 12.
#[inline(never)]
pub fn run_lazy(state: RawState, budget: u64, buffer: &mut [u8]) -> Ran {
    run_by(Fast::run, state, budget, buffer)
}

/// The eager run of a sound state, with the same declines.
#[inline(never)]
pub fn run_eager(state: RawState, budget: u64, buffer: &mut [u8]) -> Ran {
    run_by(Fast::run_eager, state, budget, buffer)
}

/// The position call of a sound state, with decline 14.
#[inline(never)]
pub fn position(state: RawState, integrator: usize) -> Positioned {
    let run = &state.run;
    let (number, value) = match integrator < state.plan.counts.n {
        false => (REFUSED_INTEGRATOR_NUMBER, 0),
        true => {
            let ticks = run.clocks.clock - run.l[integrator];
            let way = run.s[integrator] * i64::from(ticks);
            (ACCEPTED, run.x[integrator] + way)
        }
    };
    Positioned {
        number,
        value,
        state,
    }
}

/// A run as a call. It is part of either, so that the state is not copied once more.
#[inline(always)]
fn run_by(
    engine: impl Fn(&mut Fast, u64, &mut [u8]) -> Outcome,
    mut state: RawState,
    budget: u64,
    buffer: &mut [u8],
) -> Ran {
    let declined = |number, state| Ran {
        number,
        status: 0,
        integrator: 0,
        written: 0,
        state,
    };
    if budget > LARGEST_BUDGET {
        return declined(REFUSED_BUDGET, state);
    }
    let needed = budget as usize * state.plan.counts.events_per_instant() * EVENT_BYTES;
    if buffer.len() < needed {
        return declined(REFUSED_RUN_BUFFER, state);
    }
    let mut fast = Fast::prepared(&state);
    let outcome = engine(&mut fast, budget, buffer);
    state.run = fast.running();
    Ran {
        number: ACCEPTED,
        status: outcome.status.number(),
        integrator: outcome.status.integrator(),
        written: outcome.written,
        state,
    }
}
