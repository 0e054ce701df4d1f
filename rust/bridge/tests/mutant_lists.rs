//! The campaign over lists can fail: it finds every mutant of the engines, whether the simulator that is
//! compared has it or the second one, and every mutant of the runs and of the position call.

mod mutant_runs;

use cup_bridge::campaign::lists::Campaign;
use cup_bridge::campaign::ProvedCalls;
use cup_check::calls::{SecondSimulator, Simulator};
use cup_check::engine;
use mutant_runs::{Mutant, MutantCalls, POSITIONS, RUNS};

/// Lists tried for each mutant; most are found within the first hundred.
const LISTS: u64 = 1_000;
/// Where the tried ones start from.
const SEED: u64 = 1;

/// The first difference between a simulator and the second one, which may have a mutant of its engines.
fn first_difference(simulator: &dyn Simulator, mutant: engine::Mutant) -> Option<String> {
    let campaign = Campaign {
        lists: LISTS,
        seed: SEED,
        mutant,
    };
    let first = campaign.run(simulator).differences.into_iter().next()?;
    Some(first.chars().take(200).collect())
}

#[test]
fn every_mutant_of_the_second_simulators_engines_is_found_over_lists() {
    for mutant in engine::Mutant::ALL {
        let found = first_difference(&ProvedCalls, mutant);
        println!("{mutant:?}: {found:?}");
        assert!(found.is_some(), "{mutant:?} was not found");
    }
    assert_eq!(first_difference(&ProvedCalls, engine::Mutant::None), None);
}

/// Here the second simulator's engines stand in for the proved ones, so that it is the plain machine
/// that finds them out.
#[test]
fn every_mutant_of_the_engines_is_found_by_the_plain_machine() {
    for mutant in engine::Mutant::ALL {
        let found = first_difference(&SecondSimulator { mutant }, engine::Mutant::None);
        println!("{mutant:?}: {found:?}");
        let found = found.unwrap_or_else(|| panic!("{mutant:?} was not found"));
        assert!(!found.contains("second simulator's engine"), "{found}");
    }
}

fn find(mutants: &[Mutant]) {
    for &mutant in mutants {
        let found = first_difference(&MutantCalls::new(mutant), engine::Mutant::None);
        println!("{mutant:?}: {found:?}");
        assert!(found.is_some(), "{mutant:?} was not found");
    }
}

#[test]
fn no_difference_is_found_without_a_mutant() {
    let calls = MutantCalls::new(Mutant::Nothing);
    assert_eq!(first_difference(&calls, engine::Mutant::None), None);
}

#[test]
fn every_mutant_of_a_run_is_found() {
    find(&RUNS);
}

/// The plain machine has neither stored positions nor last-moved ticks, so this is the engines' to find.
#[test]
fn positions_stored_for_another_tick_are_found_by_the_engines() {
    let calls = MutantCalls::new(Mutant::UnmovedStoredForTickBefore);
    let found = first_difference(&calls, engine::Mutant::None).expect("it is found");
    assert!(
        found.contains("second simulator's engine: state"),
        "{found}"
    );
}

#[test]
fn every_mutant_of_the_position_call_is_found() {
    find(&POSITIONS);
}
