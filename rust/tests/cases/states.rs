//! The soundness of states filled by hand.

use super::{times, SEEDS, SMALL};
use crate::common::{cups_with_an_unused_entry_set, loaded, rng_of, SIMULATOR};
use crate::prover::antt::{field, nat_case, state, truth_case};
use crate::prover::Declaration;
use cup_check::calls::Simulator;
use cup_check::engine::Engine;
use cup_check::generate::states::sound_state;
use cup_check::generate::{Breakage, Rng};
use cup_check::limits::{INTEGRATORS, LARGEST_BUDGET};
use cup_check::met::Met;
use cup_check::raw::RawState;
use cup_check::samples::document_cup;
use cup_check::sound::{broken_clauses, is_sound, Clause};

/// What has to be met: sound states, and for every clause one that breaks it alone.
pub fn required() -> Met {
    let mut met = Met::default();
    met.require("sound", 5);
    // There is a breakage for every clause, of the same name.
    met.require_each(Breakage::ALL.map(|clause| format!("{clause:?}")), 1);
    met
}

fn count(met: &mut Met, state: &RawState) {
    met.count(if is_sound(state) {
        "sound"
    } else {
        "not sound"
    });
    if let [clause] = &broken_clauses(state)[..] {
        met.count(name_of(clause));
    }
}

/// A clause without the place where it is broken.
fn name_of(clause: &Clause) -> String {
    let whole = format!("{clause:?}");
    whole.chars().take_while(|&letter| letter != '(').collect()
}

/// A state and the name of its theorem.
type Named = (String, RawState);

/// Sound states, states with one clause broken, and states with a wild number.
pub fn declarations(met: &mut Met) -> Vec<Declaration> {
    let states = [sound(), broken(), unused_entry_set(), wild()].concat();
    let theorem = |(name, raw): Named| {
        count(met, &raw);
        let cases = cases(&raw).to_vec();
        Declaration::Theorem { name, cases }
    };
    states.into_iter().map(theorem).collect()
}

/// Whether a state is sound, and the numbers of calls with which there is something else wrong: a
/// state that is not sound goes before it.
fn cases(raw: &RawState) -> [String; 4] {
    let (term, budget) = (state(raw), LARGEST_BUDGET + 1);
    let call = format!("record {{ engine = Eager; budget = {budget}; buffer = [] }}");
    let ran = SIMULATOR.run(Engine::Eager, raw, budget, &mut []);
    let positioned = SIMULATOR.position(raw, INTEGRATORS);
    let written = SIMULATOR.write(raw, &mut []);
    let number = |call: String, number: usize| nat_case(&field(&call, "number"), number as u64);
    [
        truth_case(&format!("is_sound {term}"), is_sound(raw)),
        number(format!("answer_of {term} ({call})"), ran.number),
        number(
            format!("positioned_of {term} {INTEGRATORS}"),
            positioned.number,
        ),
        number(format!("write_of {term} []"), written.number),
    ]
}

/// Document 01's cup as it is loaded, said not to be sound.
pub fn wrong(name: &str) -> Declaration {
    let cup = state(&loaded(&document_cup()));
    Declaration::Theorem {
        name: name.to_string(),
        cases: vec![truth_case(&format!("is_sound {cup}"), false)],
    }
}

fn sound() -> Vec<Named> {
    let seeds = SEEDS.take(SMALL.len() * times());
    seeds
        .map(|seed| (format!("sound-{seed}"), sound_by(seed).1))
        .collect()
}

/// A sound state of a plan of one of the small families.
fn sound_by(seed: u64) -> (Rng, RawState) {
    let family = SMALL[seed as usize % SMALL.len()];
    let mut rng = rng_of(family, seed);
    let plan = family.plan(&mut rng);
    let state = sound_state(&mut rng, &plan);
    (rng, state)
}

/// Not every state can be broken in every clause, so other seeds are tried.
fn broken() -> Vec<Named> {
    let mut all = Vec::new();
    for breakage in Breakage::ALL {
        let broken = SEEDS.filter_map(|seed| {
            let (mut rng, sound) = sound_by(seed);
            let (state, _) = breakage.apply(&mut rng, &sound)?;
            Some((format!("broken-{breakage:?}-{seed}"), state))
        });
        all.extend(broken.take(times()));
    }
    all
}

/// Each of the arrays with an unused entry that is not 0.
fn unused_entry_set() -> Vec<Named> {
    let states = cups_with_an_unused_entry_set().into_iter().enumerate();
    states
        .map(|(array, (state, _))| (format!("unused-{array}"), state))
        .collect()
}

/// Numbers at the ends of their types, the five counts first: nothing may be asked of so many
/// entries.
const WILD: [fn(&mut RawState); 14] = [
    |state| state.plan.counts.n = usize::MAX,
    |state| state.plan.counts.m = usize::MAX,
    |state| state.plan.counts.k = usize::MAX,
    |state| state.plan.counts.links = usize::MAX,
    |state| state.plan.counts.commands = usize::MAX,
    |state| state.run.x[0] = i64::MIN,
    |state| state.run.x[1] = i64::MAX,
    |state| state.run.q[0] = i64::MIN,
    |state| state.run.s[1] = i64::MIN,
    |state| state.run.inputs[0] = i64::MAX,
    |state| state.run.clocks.clock = u32::MAX,
    |state| state.run.clocks.next = usize::MAX,
    |state| state.run.clocks.instants = u64::MAX,
    |state| state.run.clocks.updates = u64::MAX,
];

fn wild() -> Vec<Named> {
    let cup = loaded(&document_cup());
    let state = |(number, change): (usize, &fn(&mut RawState))| {
        let mut state = cup.clone();
        change(&mut state);
        (format!("wild-{number}"), state)
    };
    WILD.iter().enumerate().map(state).collect()
}
