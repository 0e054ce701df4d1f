//! The definitions that every contract and theorem cites, computed by the prover on random material
//! and compared with this simulator: the load of faulty files, the soundness of states filled by
//! hand, and lists of run calls with what the plain machine makes of them.
//!
//! A crate of cases is put beside copies of the repository's crates with the definitions, in a folder
//! of its own, and checked there by the toolchain's `rt`. Each case is an equation that holds by
//! computation alone.
//! The variable CUP_CASES asks for that many times as many random cases.

mod cases;
mod common;
mod prover;

use cases::{files, lists, states};
use prover::{Declaration, Repository};

#[test]
fn the_definitions_compute_what_this_simulator_says() {
    let repository = Repository::beside_the_crates();
    let verdict = repository.check(&all_declarations());
    assert!(verdict.proved, "{:?}\n{}", verdict.refused, verdict.printed);
    assert_wrong_ones_are_refused(&repository);
}

/// Everything to compare, of which there has to be enough.
fn all_declarations() -> Vec<Declaration> {
    let mut met = [files::required(), states::required(), lists::required()];
    let [files_met, states_met, lists_met] = &mut met;
    let all = [
        files::declarations(files_met),
        states::declarations(states_met),
        lists::declarations(lists_met),
    ]
    .concat();
    let cases: usize = all.iter().map(Declaration::cases).sum();
    println!("{cases} cases");
    for met in met {
        print!("{met}");
        met.assert_enough();
    }
    all
}

/// The comparison can fail: beside right theorems, those that say something else are refused, every
/// one of them and nothing more.
fn assert_wrong_ones_are_refused(repository: &Repository) {
    let wrong = ["wrong-number", "wrong-soundness", "wrong-updates"];
    let mut declarations = vec![files::wrong(wrong[0]), states::wrong(wrong[1])];
    declarations.extend(lists::declarations_with_a_wrong_one(wrong[2]));
    let verdict = repository.check(&declarations);
    assert!(!verdict.proved, "{}", verdict.printed);
    let refused: Vec<&str> = verdict.refused.iter().map(String::as_str).collect();
    assert_eq!(refused, wrong, "{}", verdict.printed);
}
