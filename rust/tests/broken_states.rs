//! States that break one clause of soundness each: every call declines by 10.

mod common;

use common::{cups_with_an_unused_entry_set, loaded, MARK, SIMULATOR};
use cup_check::calls::Simulator;
use cup_check::engine::Engine;
use cup_check::generate::breakage::with_wild_number;
use cup_check::generate::states::sound_state;
use cup_check::generate::{plans, Breakage, Rng};
use cup_check::limits::{
    ACCEPTED, REFUSED_COMMAND, REFUSED_INPUT, REFUSED_INTEGRATOR, REFUSED_LINK, REFUSED_NODE,
    REFUSED_UNSOUND,
};
use cup_check::plan::Plan;
use cup_check::raw::{RawPlan, RawState};
use cup_check::sound::{broken_clauses, is_sound, Clause};

/// Asserts that exactly this clause is broken and that every call declines by 10.
fn assert_breaks(state: &RawState, clause: Clause) {
    assert_eq!(broken_clauses(state), [clause]);
    assert_declined(state);
}

/// Asserts that every call declines by 10 and changes nothing.
fn assert_declined(state: &RawState) {
    let mut buffer = [MARK; 5_000];
    for engine in Engine::BOTH {
        let ran = SIMULATOR.run(engine, state, 1, &mut buffer);
        assert_eq!((ran.number, ran.status), (REFUSED_UNSOUND, 0));
        assert_eq!((ran.integrator, ran.written), (0, 0));
        assert_eq!(&ran.state, state);
    }
    let position = SIMULATOR.position(state, 0);
    assert_eq!((position.number, position.value), (REFUSED_UNSOUND, 0));
    assert_eq!(&position.state, state);
    let written = SIMULATOR.write(state, &mut buffer);
    assert_eq!((written.number, written.length), (REFUSED_UNSOUND, 0));
    assert_eq!(&written.state, state);
    assert_eq!(buffer, [MARK; 5_000]);
}

#[test]
fn every_clause_broken_alone_in_random_states() {
    for breakage in Breakage::ALL {
        let mut broken = 0;
        for seed in 0..600 {
            let mut rng = Rng::new(seed);
            let plan = plans::any(&mut rng);
            let sound = sound_state(&mut rng, &plan);
            if let Some((state, clause)) = breakage.apply(&mut rng, &sound) {
                assert_breaks(&state, clause);
                broken += 1;
            }
        }
        println!("{breakage:?}: {broken} states");
        assert!(broken >= 30, "{breakage:?}: {broken}");
    }
}

#[test]
fn wild_numbers_anywhere_are_answered() {
    let mut sound = 0;
    for seed in 0..4_000 {
        let mut rng = Rng::new(seed);
        let plan = plans::any(&mut rng);
        let state = sound_state(&mut rng, &plan);
        let wild = with_wild_number(&mut rng, &state);
        if is_sound(&wild) {
            assert_eq!(SIMULATOR.position(&wild, 0).number, ACCEPTED);
            sound += 1;
        } else {
            assert_declined(&wild);
        }
    }
    println!("{sound} of 4000 still sound");
    assert!((100..3_900).contains(&sound), "{sound}");
}

#[test]
fn every_unused_entry_has_to_be_0() {
    for (state, clause) in cups_with_an_unused_entry_set() {
        assert_breaks(&state, clause);
    }
}

#[test]
fn numbers_wider_than_a_file_holds_break_the_plans_rules() {
    let accepted = Plan::new(9).integrator(0, 1).input(0).limit(0, 0, 0);
    let state = loaded(&accepted.link(0, 1, 1).command(5, 0, 0));
    // 2^32 more is the same word in a file, but not the same number in a state.
    type Change = fn(&mut RawPlan);
    let changes: [(Change, usize); 13] = [
        (
            |plan| plan.integrators.starts[0] = i64::MIN,
            REFUSED_INTEGRATOR,
        ),
        (|plan| plan.integrators.quanta[0] = -1, REFUSED_INTEGRATOR),
        (
            |plan| plan.integrators.quanta[0] = i64::MIN,
            REFUSED_INTEGRATOR,
        ),
        (|plan| plan.inputs.firsts[0] = i64::MAX, REFUSED_INPUT),
        (|plan| plan.nodes.kinds[0] += 1 << 32, REFUSED_NODE),
        (|plan| plan.nodes.a[0] += 1 << 32, REFUSED_NODE),
        (|plan| plan.nodes.b[0] += 1 << 32, REFUSED_NODE),
        (|plan| plan.nodes.lows[0] = i64::MIN, REFUSED_NODE),
        (|plan| plan.links.targets[0] += 1 << 32, REFUSED_LINK),
        (|plan| plan.links.sources[0] += 1 << 32, REFUSED_LINK),
        (|plan| plan.links.coefficients[0] = i64::MIN, REFUSED_LINK),
        (|plan| plan.commands.inputs[0] += 1 << 32, REFUSED_COMMAND),
        (|plan| plan.commands.values[0] = i64::MIN, REFUSED_COMMAND),
    ];
    for (change, number) in changes {
        let mut broken = state.clone();
        change(&mut broken.plan);
        let clauses = broken_clauses(&broken);
        assert!(matches!(clauses[..], [Clause::Plan(refusal)] if refusal.number() == number));
        assert_declined(&broken);
    }
}

#[test]
fn the_limits_of_each_clause_are_sound() {
    let mut state = loaded(&Plan::new(7).integrator(0, 10));
    state.run.clocks.clock = 7;
    state.run.clocks.instants = 7;
    state.run.clocks.updates = 7;
    for (x, q) in [(9, 0), (-9, 0), (0, 9), (20, 11)] {
        (state.run.x[0], state.run.q[0]) = (x, q);
        assert!(is_sound(&state));
    }
    state.run.x[0] = 21;
    assert_breaks(&state, Clause::PositionOutsideLevels(0));
}
