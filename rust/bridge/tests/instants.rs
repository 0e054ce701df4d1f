//! The proved instant against the second simulator's engines and its plain machine, from at least
//! [`STATES`] sound states, most of which no run reaches; each engine takes 100,000 instants or more.
//!
//! CUP_INSTANTS asks for more states, CUP_SEED for other ones, and CUP_MUTANT names a mutant of the
//! second simulator's engines, which has to make this test fail.

mod common;

use common::Report;
use cup_bridge::campaign::instants::{Campaign, STATES};
use cup_bridge::campaign::{count_signs, ProvedCalls, SIGNS};
use cup_check::generate::{plans, Fill, Rng};
use cup_check::met::Met;

#[test]
fn the_proved_instant_agrees_with_the_second_simulator() {
    let campaign = Campaign::by_variables();
    let least = STATES;
    assert!(campaign.states >= least, "CUP_INSTANTS is at least {least}");
    let report = Report {
        title: "instants",
        counted: "states",
        seed: campaign.seed,
        mutant: Some(format!("{:?}", campaign.mutant)),
    };
    let met = report.check(|| campaign.run(&ProvedCalls));
    assert_eq!(met.of("states"), campaign.states);
}

#[test]
fn a_state_that_a_run_leaves_has_none_of_the_signs() {
    let mut met = Met::default();
    for seed in 0..5_000 {
        let mut rng = Rng::new(seed);
        let plan = plans::any(&mut rng);
        count_signs(&mut met, &Fill::Reached.state(&mut rng, &plan));
    }
    assert_eq!(SIGNS.map(|sign| met.of(sign)), [0, 0]);
}
