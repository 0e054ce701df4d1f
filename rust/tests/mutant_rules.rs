//! Mutants of the engines and of the reader: the comparison has to find every one of them.

mod common;

use common::first_difference;
use cup_check::calls::SecondSimulator;
use cup_check::file::read::read_by;
use cup_check::file::{read, ReaderRules, Refusal};
use cup_check::generate::{files, Rng};
use cup_check::plan::Plan;
use cup_check::{engine, file};

/// Lists tried for each family.
const LISTS: u64 = 40;
/// Files tried for each mutant of the reader.
const FILES: u64 = 5_000;

#[test]
fn every_mutant_of_the_engines_is_found() {
    for mutant in engine::Mutant::ALL {
        let found = first_difference(&SecondSimulator { mutant }, LISTS);
        println!("{mutant:?}: {found:?}");
        assert!(found.is_some(), "{mutant:?} was not found");
    }
}

#[test]
fn without_a_mutant_the_same_lists_agree() {
    let mutant = engine::Mutant::None;
    assert_eq!(first_difference(&SecondSimulator { mutant }, LISTS), None);
}

/// The first file of which a table of rules answers another number or entry, or another plan.
fn first_difference_in_reading(rules: &ReaderRules) -> Option<u64> {
    let answer = |read: Result<Plan, Refusal>| read.map_err(|why| (why.number(), why.entry));
    (0..FILES).find(|&seed| {
        let (_, file) = files::any(&mut Rng::new(seed));
        answer(read_by(rules, &file)) != answer(read(&file))
    })
}

#[test]
fn every_mutant_of_the_reader_is_found() {
    for mutant in file::Mutant::ALL {
        let found = first_difference_in_reading(&mutant.rules());
        println!("{mutant:?}: {found:?}");
        assert!(found.is_some(), "{mutant:?} was not found");
    }
    let none = file::Mutant::None.rules();
    assert_eq!(first_difference_in_reading(&none), None);
}
