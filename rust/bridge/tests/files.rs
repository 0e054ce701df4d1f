//! The proved calls against the second simulator, on at least [`FILES`] files.
//!
//! CUP_FILES asks for more files, CUP_SEED for other ones, and CUP_MUTANT names a mutant of the second
//! simulator's reader, which has to make this test fail.

mod common;

use common::Report;
use cup_bridge::campaign::{Campaign, ProvedCalls, FILES};

#[test]
fn the_proved_calls_on_files_agree_with_the_second_simulator() {
    let campaign = Campaign::by_variables();
    assert!(campaign.files >= FILES, "CUP_FILES is at least {FILES}");
    let report = Report {
        title: "campaign",
        counted: "files",
        seed: campaign.seed,
        mutant: Some(format!("{:?}", campaign.mutant)),
    };
    let met = report.check(|| campaign.run(&ProvedCalls));
    assert_eq!(met.of("files"), campaign.files);
}
