//! The sides that are timed, each taking the same run of a plan.

use crate::machine;
use crate::state::{Ran, State};
use cup_check::calls as second;
use cup_check::engine::run::run;
use cup_check::engine::{Engine, Rules, State as Readable};
use cup_check::fast::{run_eager, run_lazy, Fast};
use cup_check::limits::{ACCEPTED, EVENT_BYTES, LARGEST_BUDGET, PAUSED};
use cup_check::plan::Plan;
use cup_check::raw::RawState;
use cup_check::sound::sound_engine_state;
use cup_check::status::Status;
use std::cell::RefCell;
use std::hint::black_box;

/// A state as each side takes it, and a buffer for the largest budget.
pub struct Start {
    proved: State,
    raw: RawState,
    kept: Fast,
    readable: Readable,
    buffer: RefCell<Vec<u8>>,
}

/// The run calls of a side: so many with this budget, or fewer if the status is first 1 or 2.
#[derive(Clone, Copy, Debug)]
pub struct Calls {
    /// Of each call.
    pub budget: u64,
    /// How many calls.
    pub count: usize,
}

/// Where they end.
#[derive(Clone, Debug, PartialEq, Eq)]
pub struct End {
    /// The last call's.
    pub status: usize,
    /// The last call's.
    pub state: RawState,
    /// The bytes of all calls.
    pub events: Vec<u8>,
}

/// What takes the bytes of each call's events.
pub type Events<'a> = &'a mut dyn FnMut(&[u8]);

impl End {
    /// How many events there are.
    pub fn events_count(&self) -> usize {
        self.events.len() / EVENT_BYTES
    }
}

impl Start {
    /// The start of an accepted plan.
    pub fn of(plan: &Plan) -> Start {
        Start::of_state(RawState::start(plan))
    }

    /// A sound state, which may be filled by hand.
    pub fn of_state(raw: RawState) -> Start {
        let events = raw.plan.counts.events_per_instant();
        let longest = LARGEST_BUDGET as usize * events * EVENT_BYTES;
        Start {
            proved: State::from(&raw),
            kept: Fast::prepared(&raw),
            readable: sound_engine_state(&raw).expect("a sound state"),
            buffer: RefCell::new(vec![0; longest]),
            raw,
        }
    }

    /// The proved calls; every one is given a copy of a state and answers one.
    pub fn proved(&self, engine: Engine, calls: Calls, events: Events) -> Box<Ran> {
        let buffer = &mut *self.buffer.borrow_mut();
        let mut ran = machine::run(engine, black_box(&self.proved), calls.budget, buffer);
        events(&buffer[..ran.written]);
        for _ in 1..calls.count {
            if ran.status != PAUSED {
                break;
            }
            ran = machine::run(engine, &ran.state, calls.budget, buffer);
            events(&buffer[..ran.written]);
        }
        ran
    }

    /// The hand-written engines in the form of a call.
    pub fn called(&self, engine: Engine, calls: Calls, events: Events) -> Box<second::Ran> {
        let run = match engine {
            Engine::Lazy => run_lazy,
            Engine::Eager => run_eager,
        };
        let buffer = &mut *self.buffer.borrow_mut();
        let state = black_box(&self.raw).clone();
        let mut ran = Box::new(run(state, calls.budget, buffer));
        events(&buffer[..ran.written]);
        for _ in 1..calls.count {
            if ran.status != PAUSED {
                break;
            }
            ran = Box::new(run(ran.state.clone(), calls.budget, buffer));
            events(&buffer[..ran.written]);
        }
        ran
    }

    /// The hand-written lazy engine with its tables kept.
    pub fn kept(&self, calls: Calls, events: Events) -> (Status, Fast) {
        let buffer = &mut *self.buffer.borrow_mut();
        let mut fast = black_box(&self.kept).clone();
        let mut status = Status::Paused;
        for _ in 0..calls.count {
            let outcome = fast.run(calls.budget, buffer);
            events(&buffer[..outcome.written]);
            status = outcome.status;
            if status != Status::Paused {
                break;
            }
        }
        (status, fast)
    }

    /// The lazy engine that is written to be read, with its state kept.
    pub fn readable(&self, calls: Calls, events: Events) -> (Status, Readable) {
        let buffer = &mut *self.buffer.borrow_mut();
        let mut state = black_box(&self.readable).clone();
        let mut status = Status::Paused;
        for _ in 0..calls.count {
            let (budget, rules) = (calls.budget, &Rules::DOCUMENT);
            let outcome = run(&mut state, Engine::Lazy, budget, buffer, rules);
            events(&buffer[..outcome.written]);
            status = outcome.status;
            if status != Status::Paused {
                break;
            }
        }
        (status, state)
    }

    /// Where all sides end; panics if they do not agree. The eager end has an l, an x and updates
    /// of its own.
    pub fn agreed_end(&self, calls: Calls) -> End {
        let lazy = collected(|events| {
            let ran = self.proved(Engine::Lazy, calls, events);
            assert_eq!(ran.number, ACCEPTED);
            (ran.status, RawState::from(&ran.state))
        });
        let eager = collected(|events| {
            let ran = self.proved(Engine::Eager, calls, events);
            (ran.status, as_lazy(RawState::from(&ran.state), &lazy.state))
        });
        let called = collected(|events| {
            let ran = self.called(Engine::Lazy, calls, events);
            (ran.status, ran.state)
        });
        let called_eager = collected(|events| {
            let ran = self.called(Engine::Eager, calls, events);
            (ran.status, as_lazy(ran.state, &lazy.state))
        });
        let kept = collected(|events| {
            let (status, fast) = self.kept(calls, events);
            let (plan, run) = (self.raw.plan.clone(), fast.running());
            (status.number(), RawState { plan, run })
        });
        let readable = collected(|events| {
            let (status, state) = self.readable(calls, events);
            (status.number(), RawState::from(&state))
        });
        let others = [
            ("eager", eager),
            ("called", called),
            ("called eager", called_eager),
            ("kept", kept),
            ("readable", readable),
        ];
        for (side, end) in others {
            assert!(end == lazy, "side {side} ends elsewhere");
        }
        lazy
    }

    /// The start as the proved calls take it.
    pub fn state(&self) -> &State {
        &self.proved
    }

    /// The start as the hand-written calls take it.
    pub fn raw(&self) -> &RawState {
        &self.raw
    }
}

/// Where a side ends, with the events of all its calls.
fn collected(side: impl FnOnce(Events) -> (usize, RawState)) -> End {
    let mut joined = Vec::new();
    let (status, state) = side(&mut |events| joined.extend_from_slice(events));
    End {
        status,
        state,
        events: joined,
    }
}

/// An eager state with the l, the x and the updates of a lazy one.
fn as_lazy(mut state: RawState, lazy: &RawState) -> RawState {
    let (n, clock) = (state.plan.counts.n, state.run.clocks.clock);
    assert!(state.run.l[..n].iter().all(|&l| l == clock));
    assert!(state.run.clocks.updates == n as u64 * state.run.clocks.instants);
    state.run.x = lazy.run.x;
    state.run.l = lazy.run.l;
    state.run.clocks.updates = lazy.run.clocks.updates;
    state
}
