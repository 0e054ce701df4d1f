//! Files and states that come back unchanged.

mod common;

use common::{listing_by_plain, loaded, run, SIMULATOR};
use cup_check::calls::Simulator;
use cup_check::engine::Engine;
use cup_check::file::encode;
use cup_check::generate::states::sound_state;
use cup_check::generate::{plans, Rng};
use cup_check::limits::LONGEST_FILE;
use cup_check::listing::listing;
use cup_check::plan::Plan;
use cup_check::raw::RawState;

fn for_plans(count: u64, mut check: impl FnMut(&mut Rng, &Plan)) {
    for seed in 0..count {
        let mut rng = Rng::new(seed);
        let plan = plans::any(&mut rng);
        check(&mut rng, &plan);
    }
}

/// The file that the writer gives for a state.
fn written(state: &RawState) -> Vec<u8> {
    let mut buffer = vec![0; LONGEST_FILE];
    let written = SIMULATOR.write(state, &mut buffer);
    assert_eq!(written.number, 0);
    buffer.truncate(written.length);
    buffer
}

#[test]
fn a_loaded_file_is_written_as_it_was() {
    for_plans(2_000, |_, plan| {
        let file = encode(plan);
        assert_eq!(written(&SIMULATOR.load(&file).state), file);
    });
}

#[test]
fn a_written_state_loads_as_the_start_of_its_plan() {
    for_plans(1_000, |rng, plan| {
        let start = loaded(plan);
        let budget = rng.below(50) as u64;
        let (ran, _) = run(rng.pick(&Engine::BOTH), &start, budget);
        assert_eq!(SIMULATOR.load(&written(&ran.state)).state, start);
        let by_hand = sound_state(rng, plan);
        assert_eq!(SIMULATOR.load(&written(&by_hand)).state, start);
    });
}

#[test]
fn a_plan_comes_back_from_a_raw_state() {
    for_plans(1_000, |_, plan| {
        assert_eq!(loaded(plan).plan.to_plan().as_ref(), Some(plan));
    });
}

#[test]
fn the_sections_are_the_files_parts_in_order() {
    for_plans(1_000, |_, plan| {
        let file = encode(plan);
        let parts: Vec<&[u8]> = (0..5)
            .map(|number| SIMULATOR.section(&file, number))
            .collect();
        assert_eq!(parts.concat(), file[44..]);
        assert_eq!(parts[0].len(), 8 * plan.integrators.len());
        assert_eq!(parts[1].len(), 4 * plan.inputs.len());
        assert_eq!(parts[2].len(), 20 * plan.nodes.len());
        assert_eq!(parts[3].len(), 12 * plan.links.len());
    });
}

#[test]
fn the_listing_is_what_the_plain_machine_tells() {
    let mut compared = 0;
    for_plans(1_500, |_, plan| {
        if let Some(expected) = listing_by_plain(plan, 2_000) {
            assert_eq!(listing(&encode(plan)), expected);
            compared += 1;
        }
    });
    assert!(compared >= 700, "{compared}");
}
