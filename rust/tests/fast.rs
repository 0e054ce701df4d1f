//! The engines written for speed, in both forms, against the plain machine and this package's engines.

mod common;

use common::{loaded, rng_of, run, MARK, SIMULATOR};
use cup_check::calls::{Loaded, Positioned, Ran, Simulator, Written};
use cup_check::compare::counts::STATUSES;
use cup_check::compare::{continued_list, loaded_list};
use cup_check::engine::Engine;
use cup_check::fast::{self, Fast};
use cup_check::generate::{run_list, Call, Family, Fill};
use cup_check::limits::{ACCEPTED, EVENT_BYTES, LARGEST_BUDGET};
use cup_check::met::Met;
use cup_check::plan::Plan;
use cup_check::raw::RawState;

/// Plans tried of each family.
const PLANS: u64 = 50;
/// The fewest runs of a form that a test has to have compared.
const RUNS: u64 = 2_000;

/// The calls written for speed. They are handed sound states only.
struct FastCalls;

impl Simulator for FastCalls {
    fn load(&self, file: &[u8]) -> Loaded {
        *fast::load(file)
    }

    fn section<'f>(&self, file: &'f [u8], number: usize) -> &'f [u8] {
        fast::section(file, number)
    }

    fn write(&self, state: &RawState, buffer: &mut [u8]) -> Written {
        fast::write(state.clone(), buffer)
    }

    fn run(&self, engine: Engine, state: &RawState, budget: u64, buffer: &mut [u8]) -> Ran {
        match engine {
            Engine::Lazy => fast::run_lazy(state.clone(), budget, buffer),
            Engine::Eager => fast::run_eager(state.clone(), budget, buffer),
        }
    }

    fn position(&self, state: &RawState, integrator: usize) -> Positioned {
        fast::position(state.clone(), integrator)
    }
}

#[test]
fn lists_of_calls_agree_with_the_plain_machine() {
    let mut met = Met::default();
    for (family, seed) in families_and_seeds() {
        let mut rng = rng_of(family, seed);
        let plan = family.plan(&mut rng);
        let list = run_list(&mut rng, plan.events_per_instant());
        let at = |difference: String| panic!("{family:?} seed {seed}: {difference}");
        loaded_list(&FastCalls, &plan, &list, &mut met).unwrap_or_else(at);
        let state = rng.pick(&Fill::ALL).state(&mut rng, &plan);
        continued_list(&FastCalls, &plan, &state, &list, &mut met).unwrap_or_else(at);
    }
    met.require_each(["lazy calls", "eager calls"], RUNS);
    met.require_each(STATUSES, 500);
    met.require("instants", 100_000);
    met.require_each(["several due", "some not moved"], 20_000);
    met.require("due and commanded", 500);
    met.require_each(["range above the lowest due", "due ticks above 2^31"], 50);
    print!("{met}");
    met.assert_enough();
}

#[test]
fn a_call_answers_what_the_engine_does() {
    let mut compared = [0; 2];
    for (family, seed) in families_and_seeds() {
        let mut rng = rng_of(family, seed);
        let plan = family.plan(&mut rng);
        let list = run_list(&mut rng, plan.events_per_instant());
        let filled = rng.pick(&Fill::ALL).state(&mut rng, &plan);
        for mut state in [loaded(&plan), filled] {
            for call in &list {
                let mut bytes = vec![MARK; call.buffer];
                let mut right = bytes.clone();
                let ran = FastCalls.run(call.engine, &state, call.budget, &mut bytes);
                let expected = SIMULATOR.run(call.engine, &state, call.budget, &mut right);
                assert!(ran == expected, "{family:?} seed {seed}: {call:?}");
                assert_eq!(bytes, right, "{family:?} seed {seed}: {call:?}");
                compared[call.engine as usize] += u64::from(ran.number == ACCEPTED);
                state = ran.state;
            }
        }
    }
    assert!(compared.iter().all(|&runs| runs >= RUNS), "{compared:?}");
}

#[test]
fn tables_may_be_kept_over_runs() {
    let mut compared = 0;
    for (family, seed) in families_and_seeds() {
        let mut rng = rng_of(family, seed);
        let plan = family.plan(&mut rng);
        let list = run_list(&mut rng, plan.events_per_instant());
        compared += compare_kept(&plan, &list);
    }
    let budget = LARGEST_BUDGET;
    let call = |buffer| Call {
        engine: Engine::Lazy,
        budget,
        buffer,
    };
    for seed in 0..12 {
        let plan = Family::Swinging.plan(&mut rng_of(Family::Swinging, seed));
        let buffer = budget as usize * plan.events_per_instant() * EVENT_BYTES;
        compared += compare_kept(&plan, &vec![call(buffer); 12]);
    }
    assert!(compared >= RUNS, "{compared}");
}

/// The list's accepted calls, all lazy, by one kept engine; answers how many there were.
fn compare_kept(plan: &Plan, list: &[Call]) -> u64 {
    let mut state = loaded(plan);
    let mut kept = Fast::prepared(&state);
    let accepted = list.iter().filter(|call| call.budget <= LARGEST_BUDGET);
    let mut compared = 0;
    for call in accepted {
        let (expected, bytes) = run(Engine::Lazy, &state, call.budget);
        let mut written =
            vec![MARK; call.budget as usize * plan.events_per_instant() * EVENT_BYTES];
        let outcome = kept.run(call.budget, &mut written);
        assert_eq!(outcome.status.number(), expected.status);
        assert_eq!(outcome.status.integrator(), expected.integrator);
        assert_eq!(&written[..outcome.written], bytes);
        assert!(written[outcome.written..].iter().all(|&byte| byte == MARK));
        assert_eq!(kept.running(), expected.state.run);
        state = expected.state;
        compared += 1;
    }
    compared
}

fn families_and_seeds() -> impl Iterator<Item = (Family, u64)> {
    (0..PLANS).flat_map(|seed| Family::ALL.map(|family| (family, seed)))
}
