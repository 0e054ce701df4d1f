//! Places of document 01 that are easily read another way, one test for each.

mod common;

use common::{events_of_plan, loaded, refusal, refusal_of_plan, run, run_plan, SIMULATOR};
use cup_check::calls::Simulator;
use cup_check::engine::Engine;
use cup_check::file::encode;
use cup_check::limits::{GRAINS_PER_ML, LARGEST_COEFFICIENT, M, NEVER};
use cup_check::plan::{Command, Plan};
use cup_check::samples::document_cup;
use cup_check::sound::{broken_clauses, is_sound, Clause};

/// One cup that an input fills by its value at every tick.
fn filled(start: i64, quantum: i64, rate: i64, horizon: u32) -> Plan {
    Plan::new(horizon)
        .integrator(start, quantum)
        .input(rate)
        .link(0, 1, GRAINS_PER_ML)
}

/// Refusal of a cup and an input with one node.
fn refusal_of_node(kind: usize, a: usize, b: usize, low: i64, high: i64) -> (usize, usize) {
    let plan = Plan::new(1).integrator(0, 1).input(0);
    refusal_of_plan(&plan.node(kind, a, b, low, high))
}

// Files.

#[test]
fn bytes_after_the_last_section_are_refusal_2() {
    let mut file = encode(&document_cup());
    file.push(0);
    assert_eq!(refusal(&file), (2, 0));
}

#[test]
fn all_counts_are_tried_before_the_horizon() {
    let mut plan = document_cup();
    plan.horizon = 0;
    plan.commands = (1..=65)
        .map(|tick| Command {
            tick,
            input: 0,
            value: 0,
        })
        .collect();
    assert_eq!(refusal_of_plan(&plan), (3, 0));
}

#[test]
fn a_plan_without_integrators_is_refusal_3() {
    assert_eq!(refusal_of_plan(&Plan::new(1).input(0)), (3, 0));
}

#[test]
fn without_inputs_any_command_is_refusal_9_entry_0() {
    let plan = Plan::new(1).integrator(0, 1).command(1, 0, 0);
    assert_eq!(refusal_of_plan(&plan), (9, 0));
}

#[test]
fn a_tick_above_the_horizon_is_refusal_9() {
    assert_eq!(
        refusal_of_plan(&filled(0, 1, 0, 5).command(5, 0, 0)),
        (0, 0)
    );
    assert_eq!(
        refusal_of_plan(&filled(0, 1, 0, 5).command(6, 0, 0)),
        (9, 0)
    );
}

#[test]
fn a_wild_predecessor_is_itself_the_lower_faulty_entry() {
    let mut plan = document_cup();
    plan.links[0].target = u32::MAX as usize;
    assert_eq!(refusal_of_plan(&plan), (8, 0));
}

#[test]
fn limits_of_kind_2_ascend_and_those_of_kind_3_need_not() {
    assert_eq!(refusal_of_node(2, 0, 0, 1, 0), (7, 0));
    assert_eq!(refusal_of_node(2, 0, 0, 1, 1), (0, 0));
    assert_eq!(refusal_of_node(3, 0, 0, 1, 0), (0, 0));
}

#[test]
fn b_of_kind_2_is_exactly_0() {
    assert_eq!(refusal_of_node(2, 1, 0, 0, 1), (0, 0));
    assert_eq!(refusal_of_node(2, 1, 1, 0, 1), (7, 0));
}

#[test]
fn a_is_used_by_every_kind() {
    for kind in 0..=3 {
        assert_eq!(refusal_of_node(kind, 1, 0, 0, 0), (0, 0));
        assert_eq!(refusal_of_node(kind, 2, 0, 0, 0), (7, 0));
    }
}

#[test]
fn kinds_0_and_1_have_lo_and_hi_0() {
    for kind in 0..=1 {
        assert_eq!(refusal_of_node(kind, 0, 0, 0, 1), (7, 0));
        assert_eq!(refusal_of_node(kind, 0, 0, -1, 0), (7, 0));
    }
}

#[test]
fn the_least_values_are_allowed() {
    let plan = filled(-M, 1, -M, 2).command(1, 0, -M);
    let plan = plan.limit(0, -M, -M).link(0, 2, -LARGEST_COEFFICIENT);
    assert_eq!(refusal_of_plan(&plan), (0, 0));
}

#[test]
fn the_view_is_empty_when_only_an_entry_is_faulty() {
    let mut plan = document_cup();
    plan.commands[0].value = M + 1;
    let file = encode(&plan);
    assert_eq!(refusal(&file), (9, 0));
    assert!((0..5).all(|number| SIMULATOR.section(&file, number).is_empty()));
}

// Sound states.

#[test]
fn unused_due_ticks_are_0_at_any_clock() {
    let mut state = run_plan(Engine::Lazy, &document_cup(), 64).state;
    assert!(state.run.clocks.clock > 0 && state.run.d[2] == 0);
    assert!(is_sound(&state));
    state.run.d[2] = NEVER;
    assert_eq!(broken_clauses(&state), [Clause::UnusedInRun]);
}

#[test]
fn wild_counts_are_refused_without_being_added() {
    let base = loaded(&document_cup());
    for value in [33, 257, usize::MAX / 2 + 1, usize::MAX] {
        let mut state = base.clone();
        state.plan.counts.n = value;
        assert_eq!(broken_clauses(&state), [Clause::Counts]);
        state.plan.counts.m = value;
        state.plan.counts.k = value;
        state.plan.counts.links = value;
        state.plan.counts.commands = value;
        for engine in Engine::BOTH {
            assert_eq!(SIMULATOR.run(engine, &state, 0, &mut []).number, 10);
        }
        assert_eq!(SIMULATOR.position(&state, 0).number, 10);
        assert_eq!(SIMULATOR.write(&state, &mut [0; 200]).number, 10);
    }
}

#[test]
fn wild_values_are_refused_without_overflow() {
    for value in [i64::MIN, i64::MIN + 1, i64::MAX, M + 1, -M - 1] {
        for place in 0..4 {
            let mut state = loaded(&document_cup());
            let run = &mut state.run;
            *[
                &mut run.x[0],
                &mut run.q[0],
                &mut run.s[0],
                &mut run.inputs[0],
            ][place] = value;
            assert_eq!(SIMULATOR.position(&state, 0).number, 10, "{place} {value}");
        }
    }
}

// The machine.

#[test]
fn a_new_output_is_the_position_and_not_the_level() {
    assert_eq!(
        events_of_plan(&filled(0, 10, 7, 4), 9),
        [(2, 0, 14), (4, 0, 28)]
    );
}

#[test]
fn a_rate_is_the_floor_of_the_whole_sum() {
    // Rounded one by one the terms would give −1 + 0.
    let plan = Plan::new(1).integrator(0, 1).input(-1).input(1);
    let state = loaded(&plan.link(0, 1, 1).link(0, 2, 1));
    assert_eq!(state.run.s[0], 0);
}

#[test]
fn a_node_whose_value_stays_still_reaches() {
    // Cup 1 reads a limit of cup 0 that is 0 before and after; cup 2 reads nothing.
    let plan = filled(0, 1, 1, 1).integrator(0, 1).integrator(0, 1);
    let mut plan = plan.limit(0, 0, 0).link(1, 4, GRAINS_PER_ML);
    plan.links[0].source = 3;
    let ran = run_plan(Engine::Lazy, &plan, 1);
    assert_eq!(ran.state.run.l[..3], [1, 1, 0]);
    assert_eq!(ran.state.run.clocks.updates, 2);
}

#[test]
fn a_command_that_repeats_a_value_still_reaches_and_is_an_event() {
    let plan = filled(0, 100, 2, 3).command(3, 0, 2);
    let (ran, bytes) = run(Engine::Lazy, &loaded(&plan), 1);
    assert_eq!(common::events(&bytes), [(3, 1, 2)]);
    assert_eq!((ran.state.run.x[0], ran.state.run.l[0]), (6, 3));
    assert_eq!(ran.state.run.clocks.updates, 1);
}

#[test]
fn kind_2_does_not_depend_on_integrator_0() {
    // Integrator 0 is due; cup 1 reads a limit of the input alone, whose B is 0.
    let plan = filled(0, 1, 1, 1).integrator(0, 9);
    let mut plan = plan.limit(2, 0, 5).link(1, 3, GRAINS_PER_ML);
    plan.links[0].source = 2;
    let ran = run_plan(Engine::Lazy, &plan, 1);
    assert_eq!(ran.state.run.clocks.updates, 1);
    assert_eq!(ran.state.run.l[..2], [1, 0]);
}

/// Three cups due at tick 1: the first stays within ±M, the other two leave it.
fn barred() -> Plan {
    Plan::new(5)
        .integrator(0, 10)
        .integrator(M, 10)
        .integrator(-M, 10)
        .input(10)
        .link(0, 3, GRAINS_PER_ML)
        .link(1, 3, GRAINS_PER_ML)
        .link(2, 3, -GRAINS_PER_ML)
        .command(1, 0, 0)
}

#[test]
fn range_names_the_lowest_integrator_beyond_and_not_the_lowest_due() {
    for engine in Engine::BOTH {
        let ran = run_plan(engine, &barred(), 3);
        assert_eq!((ran.number, ran.status, ran.integrator), (0, 2, 1));
    }
}

#[test]
fn range_bars_the_commands_of_its_tick_too() {
    let start = loaded(&barred());
    for engine in Engine::BOTH {
        let (ran, bytes) = run(engine, &start, 3);
        assert!(bytes.is_empty());
        assert_eq!(ran.state, start);
    }
}

#[test]
fn a_command_before_the_barred_tick_can_free_the_cup() {
    let plan = filled(M - 20, 30, 10, 5).command(1, 0, -10);
    assert_eq!(events_of_plan(&plan, 9)[0], (1, 1, -10));
    assert_eq!(run_plan(Engine::Lazy, &plan, 9).status, 1);
}

#[test]
fn finished_goes_before_range() {
    // The instant that would leave ±M lies above the horizon.
    assert_eq!(run_plan(Engine::Lazy, &filled(M, 20, 10, 1), 3).status, 1);
    assert_eq!(run_plan(Engine::Lazy, &filled(M, 20, 10, 2), 3).status, 2);
}

#[test]
fn the_clock_stays_at_the_last_instant() {
    let ran = run_plan(Engine::Eager, &filled(0, 10, 1, 25), 9);
    assert_eq!((ran.status, ran.state.run.clocks.clock), (1, 20));
}

#[test]
fn a_command_and_a_level_at_the_horizon_are_taken() {
    let plan = filled(0, 10, 1, 10).command(10, 0, 4);
    assert_eq!(events_of_plan(&plan, 9), [(10, 0, 10), (10, 1, 4)]);
}

#[test]
fn commands_of_one_tick_are_one_instant() {
    let plan = filled(0, 1_000, 1, 9)
        .input(0)
        .command(4, 0, 2)
        .command(4, 1, 3);
    assert_eq!(events_of_plan(&plan, 1), [(4, 1, 2), (4, 2, 3)]);
    let after = run_plan(Engine::Lazy, &plan, 9).state.run;
    assert_eq!(after.clocks.instants, 1);
}

#[test]
fn an_integrator_that_is_reached_but_not_due_keeps_its_output() {
    let state = run_plan(Engine::Lazy, &document_cup(), 2).state;
    assert_eq!((state.run.x[0], state.run.q[0]), (18, 12));
}

#[test]
fn slopes_see_all_outputs_of_their_instant() {
    // Both cups are due at tick 1 and read each other: each slope needs the other's new output.
    let plan = Plan::new(3)
        .integrator(0, 5)
        .integrator(0, 5)
        .input(5)
        .link(0, 1, GRAINS_PER_ML)
        .link(0, 2, GRAINS_PER_ML)
        .link(1, 0, GRAINS_PER_ML)
        .link(1, 2, GRAINS_PER_ML);
    let state = run_plan(Engine::Lazy, &plan, 1).state;
    assert_eq!(state.run.s[..2], [10, 10]);
}

// Calls.

#[test]
fn the_buffer_goes_by_the_budget_even_when_the_run_would_end_at_once() {
    let finished = run_plan(Engine::Lazy, &document_cup(), 64).state;
    let answer = SIMULATOR.run(Engine::Lazy, &finished, 1, &mut [0; 35]);
    assert_eq!(answer.number, 12);
}

#[test]
fn budget_0_with_an_empty_buffer_answers_the_status() {
    let states = [
        (loaded(&document_cup()), 0, 0),
        (run_plan(Engine::Lazy, &document_cup(), 64).state, 1, 0),
        (loaded(&barred()), 2, 1),
    ];
    for (state, status, integrator) in states {
        for engine in Engine::BOTH {
            let ran = SIMULATOR.run(engine, &state, 0, &mut []);
            assert_eq!((ran.number, ran.written), (0, 0));
            assert_eq!((ran.status, ran.integrator), (status, integrator));
            assert_eq!(ran.state, state);
        }
    }
}

#[test]
fn the_status_is_that_of_the_returned_state() {
    // The second instant is the last; a budget of exactly 2 already answers finished.
    assert_eq!(run_plan(Engine::Lazy, &document_cup(), 1).status, 0);
    assert_eq!(run_plan(Engine::Lazy, &document_cup(), 2).status, 1);
}

#[test]
fn a_run_that_starts_at_its_end_changes_nothing() {
    for state in [
        run_plan(Engine::Eager, &document_cup(), 9).state,
        loaded(&barred()),
    ] {
        for engine in Engine::BOTH {
            let (ran, bytes) = run(engine, &state, 1_024);
            assert_eq!((ran.number, bytes.len()), (0, 0));
            assert_eq!(ran.state, state);
        }
    }
}
