//! States filled by hand that are sound, though no run reaches them.

mod common;

use common::{events, loaded, rng_of, run, SIMULATOR};
use cup_check::compare::continued_list;
use cup_check::compare::counts::STATUSES;
use cup_check::engine::Engine;
use cup_check::generate::changes::{change_fields, without_integrators};
use cup_check::generate::states::{between_instants, set_slopes_and_dues, sound_state};
use cup_check::generate::{run_list, Family, Fill, Rng};
use cup_check::limits::{GRAINS_PER_ML, LARGEST_HORIZON, M};
use cup_check::met::Met;
use cup_check::plan::Plan;
use cup_check::raw::RawState;
use cup_check::samples::document_cup;
use cup_check::sound::{broken_clauses, is_sound, Clause};

/// Random lists from hand-filled states of each family; panics at the first difference.
fn compare_continued(lists: u64, fill: impl Fn(&mut Rng, &Plan) -> RawState) -> Met {
    let mut met = Met::default();
    for family in Family::ALL {
        for seed in 0..lists {
            let mut rng = rng_of(family, seed);
            let plan = family.plan(&mut rng);
            let state = fill(&mut rng, &plan);
            assert_eq!(broken_clauses(&state), [], "{family:?} seed {seed}");
            let list = run_list(&mut rng, plan.events_per_instant());
            continued_list(&SIMULATOR, &plan, &state, &list, &mut met)
                .unwrap_or_else(|difference| panic!("{family:?} seed {seed}: {difference}"));
        }
    }
    met
}

#[test]
fn runs_from_any_sound_state_agree_with_the_plain_machine() {
    let mut met = compare_continued(120, sound_state);
    met.require_each(STATUSES, 300);
    met.require("instants", 100_000);
    met.require("due ticks above 2^31", 100);
    print!("{met}");
    met.assert_enough();
}

#[test]
fn runs_from_a_clock_between_instants_agree_with_the_plain_machine() {
    let mut met = compare_continued(60, |rng, plan| {
        let budget = rng.below(40) as u64;
        let engine = rng.pick(&Engine::BOTH);
        let (ran, _) = run(engine, &loaded(plan), budget);
        between_instants(rng, &ran.state)
    });
    met.require_each(STATUSES, 100);
    met.require("instants", 50_000);
    print!("{met}");
    met.assert_enough();
}

#[test]
fn every_fill_is_sound_and_its_runs_agree_with_the_plain_machine() {
    for fill in Fill::ALL {
        let mut met = compare_continued(15, |rng, plan| fill.state(rng, plan));
        met.require("instants", 1_000);
        print!("{fill:?}\n{met}");
        met.assert_enough();
    }
}

/// What the changes are for is counted where they are used; here only that they do something.
#[test]
fn changes_near_limits_leave_some_states_sound_and_most_not() {
    let mut sound = 0;
    for seed in 0..2_000 {
        let family = Family::ALL[seed as usize % Family::ALL.len()];
        let mut rng = rng_of(family, seed);
        let plan = family.plan(&mut rng);
        let mut state = rng.pick(&Fill::ALL).state(&mut rng, &plan);
        change_fields(&mut rng, &mut state);
        sound += u32::from(is_sound(&state));
        let none = without_integrators(&mut rng);
        assert_eq!(broken_clauses(&none), [Clause::Counts]);
    }
    assert!((200..1_000).contains(&sound), "{sound}");
}

#[test]
fn no_instants_with_a_clock_above_0_and_inputs_that_no_command_set() {
    let mut state = loaded(&document_cup());
    state.run.clocks.clock = 2;
    state.run.inputs[0] = 4;
    set_slopes_and_dues(&mut state);
    assert!(is_sound(&state));
    let (ran, bytes) = run(Engine::Lazy, &state, 2);
    assert_eq!(events(&bytes), [(3, 0, 12), (6, 0, 24), (6, 2, -3)]);
    let clocks = ran.state.run.clocks;
    assert_eq!((clocks.clock, clocks.instants), (6, 2));
}

#[test]
fn the_latest_due_tick_of_a_sound_state() {
    let plan = Plan::new(LARGEST_HORIZON).integrator(0, M).input(1);
    let mut state = loaded(&plan.link(0, 1, GRAINS_PER_ML));
    state.run.clocks.clock = LARGEST_HORIZON;
    state.run.l[0] = LARGEST_HORIZON;
    state.run.x[0] = 1 - M;
    set_slopes_and_dues(&mut state);
    assert_eq!(state.run.d[0], LARGEST_HORIZON + 0x7fff_ffff);
    assert!(is_sound(&state));
    assert_eq!(run(Engine::Lazy, &state, 1).0.status, 1);
}
