//! Load, the plan writer and the tables of the proved library against the second simulator.
//!
//! CUP_STARTS, CUP_WRITES and CUP_TABLES ask for more files and states, CUP_SEED for other ones.

mod common;

use common::Report;
use cup_bridge::campaign::{starts, tables, writes, Outcome, ProvedCalls};
use cup_bridge::machine::{load, write};
use cup_check::met::Met;
use cup_check::samples;

/// Checks a campaign that has no mutants of the second simulator.
fn check(
    title: &'static str,
    counted: &'static str,
    seed: u64,
    run: impl FnOnce() -> Outcome,
) -> Met {
    let report = Report {
        title,
        counted,
        seed,
        mutant: None,
    };
    report.check(run)
}

#[test]
fn what_is_loaded_agrees_with_the_second_simulator() {
    let campaign = starts::Campaign::by_variables();
    let least = starts::FILES;
    assert!(campaign.files >= least, "CUP_STARTS is at least {least}");
    let met = check("starts", "files loaded", campaign.seed, || {
        campaign.run(&ProvedCalls)
    });
    assert_eq!(met.of("files loaded"), campaign.files);
}

#[test]
fn what_is_written_agrees_with_the_second_simulator() {
    let campaign = writes::Campaign::by_variables();
    let least = writes::STATES;
    assert!(campaign.states >= least, "CUP_WRITES is at least {least}");
    let met = check("writes", "states", campaign.seed, || {
        campaign.run(&ProvedCalls)
    });
    assert_eq!(met.of("states"), campaign.states);
}

#[test]
fn the_tables_agree_with_document_01_followed_word_for_word() {
    let campaign = tables::Campaign::by_variables();
    let least = tables::STATES;
    assert!(campaign.states >= least, "CUP_TABLES is at least {least}");
    let met = check("tables", "states", campaign.seed, || {
        campaign.run(&ProvedCalls)
    });
    assert_eq!(met.of("states"), campaign.states);
}

#[test]
fn the_samples_come_back_as_they_were() {
    for sample in samples::all() {
        let loaded = load(&sample.file);
        let mut buffer = vec![7; sample.file.len() + 3];
        let written = write(&loaded.state, &mut buffer);
        assert_eq!((written.number, &written.state), (0, &loaded.state));
        let refused = sample.name == "refused";
        assert_eq!(
            (loaded.number, loaded.entry),
            if refused { (8, 4) } else { (0, 0) }
        );
        // A refused file gives the idle state, whose file has 52 bytes.
        let length = if refused { 52 } else { sample.file.len() };
        assert_eq!(written.length, length);
        assert!(refused || buffer[..length] == sample.file);
        assert!(buffer[length..].iter().all(|&byte| byte == 7));
    }
}
