//! The proved test of soundness against the second simulator's, on at least [`STATES`] states, more
//! than a million of them made by changing a sound one.
//!
//! CUP_STATES asks for more states, CUP_SEED for other ones, and CUP_MUTANT names a mutant of the
//! second simulator's test, which has to make this test fail.

mod common;

use common::Report;
use cup_bridge::campaign::soundness::{Campaign, STATES};
use cup_bridge::campaign::ProvedCalls;

#[test]
fn the_proved_test_of_soundness_agrees_with_the_second_simulator() {
    let campaign = Campaign::by_variables();
    let least = STATES;
    assert!(campaign.states >= least, "CUP_STATES is at least {least}");
    let report = Report {
        title: "soundness",
        counted: "changed states",
        seed: campaign.seed,
        mutant: Some(format!("{:?}", campaign.mutant)),
    };
    let met = report.check(|| campaign.run(&ProvedCalls));
    assert_eq!(met.of("states"), campaign.states);
}
