//! The calls on files and states written for speed, against this package's reader, encoding, position
//! call and test of soundness.

mod common;

use common::{MARK, SIMULATOR};
use cup_check::calls::Simulator;
use cup_check::fast;
use cup_check::file::read::place_in;
use cup_check::file::{self, encode, Cause};
use cup_check::generate::changes::{change_fields, without_integrators};
use cup_check::generate::files::{any, next_to};
use cup_check::generate::{plans, Breakage, Fill, Rng};
use cup_check::limits::{ACCEPTED, LONGEST_FILE, REFUSED_WRITE_BUFFER, SECTIONS};
use cup_check::met::Met;
use cup_check::raw::RawState;
use cup_check::samples::document_cup;
use cup_check::sound::{broken_clauses, Array, Clause};

/// Random files, beside all that are next to document 01's cup.
const FILES: u64 = 20_000;
/// Sound states that are written and asked for positions.
const STATES: u64 = 4_000;
/// Sound states that are tested for soundness, and then changed.
const TESTED: u64 = 10_000;
/// How often each is changed.
const CHANGES: usize = 10;
/// The first cause that is of a plan and not of a file.
const FIRST_OF_PLANS: usize = Cause::HorizonZero as usize;

#[test]
fn files_are_loaded_read_and_viewed_alike() {
    let mut met = Met::default();
    for file in next_to(&encode(&document_cup())) {
        compare_file(&file, &mut met);
    }
    for seed in 0..FILES {
        compare_file(&any(&mut Rng::new(seed)).1, &mut met);
    }
    met.require("accepted", 3_000);
    met.require_each(Cause::ALL.map(|cause| format!("{cause:?}")), 100);
    met.require_each((0..SECTIONS).map(section_name), 1_000);
    print!("{met}");
    met.assert_enough();
}

/// Number, entry and state of load, number and entry of the reader, and the sections by their place
/// in the file.
fn compare_file(bytes: &[u8], met: &mut Met) {
    let expected = SIMULATOR.load(bytes);
    let loaded = fast::load(bytes);
    assert_eq!(
        (loaded.number, loaded.entry),
        (expected.number, expected.entry),
        "{bytes:?}"
    );
    assert!(loaded.state == expected.state, "{bytes:?}");
    let read =
        fast::read(bytes).map_or_else(|refused| (refused.number, refused.entry), |()| (0, 0));
    assert_eq!(read, (expected.number, expected.entry), "{bytes:?}");
    for number in (0..=SECTIONS + 1).chain([usize::MAX]) {
        let [part, right] = [fast::section(bytes, number), file::section(bytes, number)];
        let places = [part, right].map(|part| (place_in(bytes, part), part.len()));
        assert_eq!(places[0], places[1], "section {number} of {bytes:?}");
        met.count_if(!part.is_empty(), section_name(number));
    }
    match file::read(bytes) {
        Ok(_) => met.count("accepted"),
        Err(refusal) => met.count(format!("{:?}", refusal.cause)),
    }
}

fn section_name(number: usize) -> String {
    format!("section {number} with entries")
}

#[test]
fn states_are_written_alike() {
    let mut met = Met::default();
    for_states(STATES, |rng, state| {
        let length = encode(&state.plan.to_plan().expect("a sound state")).len();
        let lengths = [
            length,
            length + 1 + rng.below(40),
            length - 1,
            rng.below(length),
            0,
        ];
        for buffer in lengths.into_iter().chain([LONGEST_FILE]) {
            let mut bytes = vec![MARK; buffer];
            let mut right = bytes.clone();
            let written = fast::write(state.clone(), &mut bytes);
            let expected = SIMULATOR.write(state, &mut right);
            assert!(
                written == expected,
                "a buffer of {buffer} bytes for {length}"
            );
            assert_eq!(bytes, right, "a buffer of {buffer} bytes for {length}");
            met.count(written.number.to_string());
        }
    });
    met.require(ACCEPTED.to_string(), 2 * STATES);
    met.require(REFUSED_WRITE_BUFFER.to_string(), 2 * STATES);
    met.assert_enough();
}

#[test]
fn positions_are_the_same() {
    let mut compared = 0;
    for_states(STATES, |_, state| {
        let n = state.plan.counts.n;
        for integrator in (0..n + 2).chain([1 << 32, usize::MAX]) {
            let positioned = fast::position(state.clone(), integrator);
            let expected = SIMULATOR.position(state, integrator);
            assert!(positioned == expected, "integrator {integrator} of {n}");
            let moved_before = |l: &u32| *l < state.run.clocks.clock;
            compared += u64::from(state.run.l[..n].get(integrator).is_some_and(moved_before));
        }
    });
    assert!(compared >= 2 * STATES, "{compared} at a clock after l");
}

#[test]
fn soundness_is_the_same() {
    let mut met = Met::default();
    for_states(TESTED, |rng, sound| {
        compare_soundness(sound, &mut met);
        for _ in 0..CHANGES {
            let mut changed = sound.clone();
            change_fields(rng, &mut changed);
            compare_soundness(&changed, &mut met);
        }
        for breakage in Breakage::ALL {
            if let Some((broken, _)) = breakage.apply(rng, sound) {
                compare_soundness(&broken, &mut met);
            }
        }
        compare_soundness(&without_integrators(rng), &mut met);
    });
    let breakages = Breakage::ALL.map(|breakage| format!("{breakage:?} alone"));
    let causes = Cause::ALL[FIRST_OF_PLANS..].iter();
    let arrays = Array::ALL.map(|array| format!("unused {array:?} alone"));
    met.require("states", 20 * TESTED);
    met.require("sound", 2 * TESTED);
    met.require_each(breakages, 1_000);
    met.require_each(causes.map(|cause| format!("{cause:?} alone")), 100);
    met.require_each(arrays, 300);
    print!("{met}");
    met.assert_enough();
}

fn compare_soundness(state: &RawState, met: &mut Met) {
    met.count("states");
    let broken = broken_clauses(state);
    assert_eq!(fast::sound(state.clone()), broken.is_empty(), "{broken:?}");
    match broken[..] {
        [] => met.count("sound"),
        [clause] => count_clause(state, clause, met),
        _ => (),
    }
}

/// Counts a clause that alone is broken, and the cause or the array of it.
fn count_clause(state: &RawState, clause: Clause, met: &mut Met) {
    let shown = format!("{clause:?}");
    let name = shown.split('(').next().expect("a name");
    met.count(format!("{name} alone"));
    if let Clause::Plan(refusal) = clause {
        met.count(format!("{:?} alone", refusal.cause));
    }
    let not_zero: Vec<Array> = Array::ALL
        .into_iter()
        .filter(|array| state.plan.counts.fit() && array.unused_not_zero(state))
        .collect();
    if let [array] = not_zero[..] {
        met.count(format!("unused {array:?} alone"));
    }
}

/// Hands on so many sound states, filled in every way.
fn for_states(states: u64, mut compare: impl FnMut(&mut Rng, &RawState)) {
    for seed in 0..states {
        let mut rng = Rng::new(seed);
        let plan = plans::any(&mut rng);
        let state = rng.pick(&Fill::ALL).state(&mut rng, &plan);
        compare(&mut rng, &state);
    }
}
