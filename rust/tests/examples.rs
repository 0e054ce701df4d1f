//! The examples P1 to P9 of document 01.

mod common;

use common::{events_of_plan, loaded, run, run_plan, SIMULATOR};
use cup_check::calls::Simulator;
use cup_check::engine::{rules, Engine};
use cup_check::file::encode;
use cup_check::limits::{GRAINS_PER_ML, M};
use cup_check::listing::listing;
use cup_check::plain::{due, Plain};
use cup_check::plan::Plan;
use cup_check::samples::document_cup;

/// T by the plain machine's search, asserted to be the engines' as well.
fn ticks(x: i64, q: i64, quantum: i64, slope: i64) -> Option<i128> {
    let searched = due::ticks_to_level(x, q, quantum, slope);
    let [x, q, quantum, slope] = [x, q, quantum, slope].map(i128::from);
    assert_eq!(rules::ticks_to_level(x, q, quantum, slope), searched);
    searched
}

/// The slopes at the start, asserted to be the same in the plain machine.
fn start_slopes(plan: &Plan) -> Vec<i64> {
    let slopes = loaded(plan).run.s[..plan.integrators.len()].to_vec();
    assert_eq!(slopes, Plain::start(plan).slopes);
    slopes
}

#[test]
fn p1_the_file_has_the_pairs_and_words_given() {
    let words: [i32; 25] = [
        10, 44, 16, 60, 4, 64, 0, 64, 24, 88, 12, // header
        0, 10, 0, 1_000, // integrators
        3,     // input
        0, 2, 65_536, 1, 0, 65_536, // links
        6, 0, -3, // command
    ];
    let file: Vec<u8> = words.iter().flat_map(|word| word.to_le_bytes()).collect();
    assert_eq!(file.len(), 100);
    assert_eq!(encode(&document_cup()), file);
}

#[test]
fn p1_the_listing() {
    let text = listing(&encode(&document_cup()));
    assert_eq!(text, "4 0 12\n6 2 -3\nend 1 6 2 3\n");
}

#[test]
fn p1_lazy_updates_are_3_and_eager_updates_4() {
    let after = |engine| run_plan(engine, &document_cup(), 64).state.run;
    let updates = |engine| after(engine).clocks.updates;
    assert_eq!(updates(Engine::Lazy), 3);
    assert_eq!(updates(Engine::Eager), 4);
}

#[test]
fn p1_positions_at_clock_6_are_18_and_24() {
    for engine in Engine::BOTH {
        let state = run_plan(engine, &document_cup(), 64).state;
        assert_eq!(state.run.clocks.clock, 6);
        assert_eq!(SIMULATOR.position(&state, 0).value, 18);
        assert_eq!(SIMULATOR.position(&state, 1).value, 24);
    }
    let plan = document_cup();
    let mut plain = Plain::start(&plan);
    plain.run(64);
    assert_eq!((plain.clock, &plain.positions[..]), (6, &[18, 24][..]));
}

#[test]
fn p1_the_written_plan_is_the_file() {
    let file = encode(&document_cup());
    let (ran, _) = run(Engine::Lazy, &loaded(&document_cup()), 2);
    let mut buffer = vec![0; file.len()];
    let written = SIMULATOR.write(&ran.state, &mut buffer);
    assert_eq!((written.number, written.length), (0, file.len()));
    assert_eq!(buffer, file);
}

#[test]
fn p2_upwards_from_the_output() {
    assert_eq!(ticks(0, 0, 10, 3), Some(4));
}

#[test]
fn p3_downwards_from_above_the_output() {
    assert_eq!(ticks(18, 12, 10, -3), Some(6));
}

#[test]
fn p3_in_the_machine_the_event_is_at_tick_12_and_not_at_8() {
    let mut plan = document_cup();
    plan.horizon = 12;
    let expected = [(4, 0, 12), (6, 2, -3), (12, 0, 0)];
    assert_eq!(events_of_plan(&plan, 64), expected);
}

#[test]
fn p4_no_slope_is_never_due() {
    assert_eq!(ticks(0, 0, 10, 0), None);
    assert_eq!(ticks(9, 0, 10, 0), None);
}

#[test]
fn p5_a_level_reached_exactly_or_passed() {
    assert_eq!(ticks(0, 0, 10, 9), Some(2));
    assert_eq!(ticks(0, 0, 10, 10), Some(1));
    assert_eq!(ticks(0, 0, 10, 11), Some(1));
}

#[test]
fn p5_what_lies_beyond_the_level_is_kept() {
    let plan = Plan::new(1)
        .integrator(0, 10)
        .input(11)
        .link(0, 1, GRAINS_PER_ML);
    assert_eq!(events_of_plan(&plan, 64), [(1, 0, 11)]);
}

#[test]
fn p6_slopes_are_rounded_towards_minus_infinity() {
    let sums = [
        (-1, 1),
        (-1, GRAINS_PER_ML),
        (1, GRAINS_PER_ML - 1),
        (1, GRAINS_PER_ML),
    ];
    let slopes = sums.map(|(value, coefficient)| {
        let plan = Plan::new(1).integrator(0, 1).input(value);
        start_slopes(&plan.link(0, 1, coefficient))[0]
    });
    assert_eq!(slopes, [-1, -1, 0, 1]);
}

#[test]
fn p7_a_product_is_rounded_towards_minus_infinity() {
    let plan = Plan::new(1).integrator(0, 1).input(1).input(-1);
    let plan = plan.product(1, 2).link(0, 3, GRAINS_PER_ML);
    assert_eq!(start_slopes(&plan), [-1]);
}

#[test]
fn p8_a_comparison_gives_hi_for_equal_sources() {
    let plan = Plan::new(1).integrator(0, 1).input(7).input(7);
    let plan = plan.comparison(1, 2, -5, 5).link(0, 3, GRAINS_PER_ML);
    assert_eq!(start_slopes(&plan), [5]);
}

#[test]
fn p9_a_due_value_of_m_passes_and_one_above_bars() {
    for sign in [1, -1] {
        let filled_by = |amount| {
            Plan::new(1)
                .integrator(sign * (M - 10), 10)
                .input(sign * amount)
                .link(0, 1, GRAINS_PER_ML)
        };
        assert_eq!(
            events_of_plan(&filled_by(10), 1),
            [(1, 0, (sign * M) as i32)]
        );
        let ran = run_plan(Engine::Lazy, &filled_by(11), 1);
        let clock = ran.state.run.clocks.clock;
        assert_eq!((ran.status, ran.written, clock), (2, 0, 0));
        assert_eq!(Plain::start(&filled_by(11)).status().number(), 2);
    }
}
