//! The proved runs and the proved position call against the second simulator, over at least [`LISTS`]
//! lists of run calls.
//!
//! CUP_LISTS asks for more lists, CUP_SEED for other ones, and CUP_MUTANT names a mutant of the second
//! simulator's engines, which has to make this test fail.

mod common;

use common::Report;
use cup_bridge::campaign::lists::{Campaign, LISTS};
use cup_bridge::campaign::ProvedCalls;

#[test]
fn the_proved_runs_agree_with_the_second_simulator() {
    let campaign = Campaign::by_variables();
    let least = LISTS;
    assert!(campaign.lists >= least, "CUP_LISTS is at least {least}");
    let report = Report {
        title: "lists",
        counted: "lists",
        seed: campaign.seed,
        mutant: Some(format!("{:?}", campaign.mutant)),
    };
    let met = report.check(|| campaign.run(&ProvedCalls));
    assert_eq!(met.of("lists"), campaign.lists);
}
