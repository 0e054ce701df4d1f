//! The load of faulty files.

use super::{times, SEEDS, SMALL};
use crate::common::{every_section, refusal, rng_of, SIMULATOR};
use crate::prover::antt::{bytes, case, field, nat_case, state, STATE};
use crate::prover::Declaration;
use cup_check::calls::Simulator;
use cup_check::file::{encode, read, Cause};
use cup_check::generate::plant::planted;
use cup_check::generate::{Damage, Rng};
use cup_check::limits::{ACCEPTED, REFUSED_SHORT};
use cup_check::met::Met;

/// Damaged files of each family.
const DAMAGED: usize = 4;

/// What has to be met: an accepted file, and of each cause a refused one.
pub fn required() -> Met {
    let mut met = Met::default();
    met.require("accepted", 1);
    met.require_each(Cause::ALL.map(|cause| format!("{cause:?}")), 1);
    met
}

fn count(met: &mut Met, file: &[u8]) {
    match read(file) {
        Ok(_) => met.count("accepted"),
        Err(refusal) => met.count(format!("{:?}", refusal.cause)),
    }
}

/// An accepted file, a file for each cause of refusal, and damaged files.
pub fn declarations(met: &mut Met) -> Vec<Declaration> {
    let accepted = theorem("accepted-file".to_string(), &encode(&every_section()), met);
    let mut all = vec![accepted];
    for cause in Cause::ALL {
        let plan = every_section();
        let faulty = SEEDS.filter_map(|seed| planted(&mut Rng::new(seed), &plan, cause));
        for (number, planted) in faulty.take(times()).enumerate() {
            let expected = (cause.number(), planted.refusal.entry);
            assert_eq!(refusal(&planted.file), expected);
            let name = format!("planted-{cause:?}-{number}");
            all.push(theorem(name, &planted.file, met));
        }
    }
    for family in SMALL {
        for seed in SEEDS.take(DAMAGED * times()) {
            let mut rng = rng_of(family, seed);
            let file = encode(&family.plan(&mut rng));
            let name = format!("damaged-{family:?}-{seed}");
            all.push(theorem(name, &damaged(&mut rng, file), met));
        }
    }
    all
}

/// Damaged in one or two ways.
fn damaged(rng: &mut Rng, mut file: Vec<u8>) -> Vec<u8> {
    for _ in 0..rng.below(2) + 1 {
        file = rng.pick(&Damage::ALL).apply(rng, &file);
    }
    file
}

/// What load answers for a file: number, entry and, if it is refused, the idle state.
fn theorem(name: String, file: &[u8], met: &mut Met) -> Declaration {
    count(met, file);
    let answer = SIMULATOR.load(file);
    let load = format!("load_of {}", bytes(file));
    let mut cases = vec![
        nat_case(&field(&load, "number"), answer.number as u64),
        nat_case(&field(&load, "entry"), answer.entry as u64),
    ];
    if answer.number != ACCEPTED {
        let state = state(&answer.state);
        cases.push(case(STATE, &field(&load, "state"), &state));
    }
    Declaration::Theorem { name, cases }
}

/// An accepted file, said to be refused.
pub fn wrong(name: &str) -> Declaration {
    let file = bytes(&encode(&every_section()));
    Declaration::Theorem {
        name: name.to_string(),
        cases: vec![nat_case(
            &field(&format!("load_of {file}"), "number"),
            REFUSED_SHORT as u64,
        )],
    }
}
