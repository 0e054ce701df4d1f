//! Lazy and eager runs against the plain machine, over lists of run calls on random plans.

mod common;

use common::{compare_random, loaded, rng_of, SIMULATOR};
use cup_check::compare::counts::STATUSES;
use cup_check::compare::loaded_list;
use cup_check::file::rules;
use cup_check::generate::{long_list, Family};
use cup_check::limits::LARGEST_BUDGET;
use cup_check::met::Met;
use cup_check::sound::broken_clauses;

/// Lists tried for each family.
const LISTS: u64 = 400;

#[test]
fn generated_plans_are_accepted_and_their_start_is_sound() {
    for family in Family::ALL {
        for seed in 0..300 {
            let plan = family.plan(&mut rng_of(family, seed));
            assert_eq!(rules::check(&plan), Ok(()), "{family:?} seed {seed}");
            assert_eq!(broken_clauses(&loaded(&plan)), [], "{family:?} seed {seed}");
        }
    }
}

#[test]
fn runs_agree_with_the_plain_machine() {
    let mut met = Met::default();
    for family in Family::ALL {
        for seed in 0..LISTS {
            compare_random(&SIMULATOR, family, seed, &mut met)
                .unwrap_or_else(|difference| panic!("{difference}"));
        }
    }
    met.require("lists", LISTS * Family::ALL.len() as u64);
    met.require_each(STATUSES, 2_000);
    met.require_each(["decline 11", "decline 12"], 2_000);
    met.require_each(["eager calls", "lazy calls"], 4_000);
    met.require("accepted, no instant", 2_000);
    met.require("instants", 500_000);
    met.require("instants in the longest list", 3_000);
    met.require("lists of more than 1,000 instants", 100);
    met.require("events at the bound", 500);
    met.require("several due", 100_000);
    met.require("several commands", 2_000);
    met.require("due and commanded", 2_000);
    met.require("repeated values", 1_000);
    met.require("clipped nodes", 500_000);
    met.require("reached, not due", 100_000);
    met.require("some not moved", 100_000);
    met.require("at the horizon", 200);
    met.require("range above the lowest due", 200);
    met.require("range that bars commands", 20);
    met.require("due ticks above 2^31", 100);
    print!("{met}");
    met.assert_enough();
    assert_eq!(met.of("lists"), LISTS * Family::ALL.len() as u64);
}

#[test]
fn long_runs_agree_with_the_plain_machine() {
    let mut met = Met::default();
    for seed in 0..12 {
        let mut rng = rng_of(Family::Swinging, seed);
        let plan = Family::Swinging.plan(&mut rng);
        let list = long_list(&mut rng, plan.events_per_instant());
        loaded_list(&SIMULATOR, &plan, &list, &mut met)
            .unwrap_or_else(|difference| panic!("seed {seed}: {difference}"));
    }
    met.require("instants", 100_000);
    met.assert_enough();
    assert_eq!(met.of("instants in the longest list"), 12 * LARGEST_BUDGET);
}
