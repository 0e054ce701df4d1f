//! Damaged files: what holds of every file, whatever is wrong with it.

mod common;

use common::{refusal, SIMULATOR};
use cup_check::calls::Simulator;
use cup_check::file::encoding::assemble;
use cup_check::file::read::split;
use cup_check::file::{encode, read, Cause, Refusal};
use cup_check::generate::damage::damaged;
use cup_check::generate::{plans, Damage, Rng};
use cup_check::limits::{
    Section, ACCEPTED, HEADER_BYTES, LONGEST_FILE, REFUSED_HORIZON, REFUSED_INTEGRATOR,
    REFUSED_OFFSETS, REFUSED_SHORT, SECTIONS,
};
use cup_check::raw::RawState;
use cup_check::words::word_at;
use std::collections::BTreeMap;

/// Checks a file and answers why it was refused, if it was.
fn check(file: &[u8]) -> Option<Cause> {
    let answer = read(file);
    let loaded = SIMULATOR.load(file);
    match answer {
        Ok(_) => {
            assert_eq!((loaded.number, loaded.entry), (ACCEPTED, 0));
            let mut buffer = vec![0; LONGEST_FILE];
            let written = SIMULATOR.write(&loaded.state, &mut buffer);
            assert_eq!(&buffer[..written.length], file);
        }
        Err(refusal) => {
            assert_eq!(
                (loaded.number, loaded.entry),
                (refusal.number(), refusal.entry)
            );
            assert_eq!(loaded.state, RawState::idle());
            assert!((0..=SECTIONS).all(|number| SIMULATOR.section(file, number).is_empty()));
            assert_is_lowest(file, refusal);
        }
    }
    answer.err().map(|refusal| refusal.cause)
}

/// With the later sections emptied and its own section cut after the faulty entry, a file is
/// refused alike; cut before that entry it is accepted.
fn assert_is_lowest(file: &[u8], answered: Refusal) {
    if answered.number() <= REFUSED_HORIZON {
        assert_eq!(answered.entry, 0);
        return;
    }
    let cut_to = |entries: usize| {
        let mut sections = split(file)
            .expect("refused for an entry")
            .map(<[u8]>::to_vec);
        let place = answered.number() - REFUSED_INTEGRATOR;
        let section = Section::ALL[place];
        sections[place].truncate(entries * section.entry_bytes());
        sections[place + 1..].iter_mut().for_each(Vec::clear);
        refusal(&assemble(word_at(file, 0), &sections))
    };
    let expected = (answered.number(), answered.entry);
    assert_eq!(cut_to(answered.entry + 1), expected);
    if answered.entry > 0 || answered.number() > REFUSED_INTEGRATOR {
        assert_eq!(cut_to(answered.entry), (ACCEPTED, 0));
    }
}

#[test]
fn what_holds_of_every_file_holds_of_damaged_ones() {
    let mut refused = BTreeMap::new();
    let mut accepted = 0;
    for seed in 0..12_000 {
        let mut rng = Rng::new(seed);
        let file = encode(&plans::any(&mut rng));
        match check(&damaged(&mut rng, &file)) {
            Some(cause) => *refused.entry(cause).or_insert(0) += 1,
            None => accepted += 1,
        }
    }
    println!("accepted {accepted}, refused {refused:?}");
    assert!(accepted >= 200);
    let rare = |cause: &Cause| refused.get(cause).is_none_or(|&count| count < 10);
    assert_eq!(Cause::ALL.into_iter().find(rare), None);
}

#[test]
fn every_way_of_damage_leads_to_refusals() {
    for damage in Damage::ALL {
        let mut refused = 0;
        for seed in 0..300 {
            let mut rng = Rng::new(seed);
            let file = encode(&plans::any(&mut rng));
            let damaged = damage.apply(&mut rng, &file);
            refused += usize::from(check(&damaged).is_some());
        }
        println!("{damage:?}: {refused} of 300 refused");
        assert!(refused >= 20, "{damage:?}: {refused}");
    }
}

#[test]
fn every_beginning_of_a_file_is_refused() {
    let file = encode(&plans::Family::Tiny.plan(&mut Rng::new(3)));
    for length in 0..file.len() {
        let number = match length < HEADER_BYTES {
            true => REFUSED_SHORT,
            false => REFUSED_OFFSETS,
        };
        assert_eq!(refusal(&file[..length]), (number, 0));
    }
}
