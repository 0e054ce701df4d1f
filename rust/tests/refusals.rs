//! Refusals 1 to 9: every cause, the lowest entry, the order of the numbers.

mod common;

use common::{every_section, loaded, refusal, refusal_of_plan, SIMULATOR};
use cup_check::calls::Simulator;
use cup_check::file::encoding::{assemble, section_bytes};
use cup_check::file::read::place_in;
use cup_check::file::{encode, read, Cause};
use cup_check::generate::plant::{plant_in_file, plant_in_plan, plant_twice_in_one_entry, planted};
use cup_check::generate::{plans, Rng};
use cup_check::limits::{Section, LARGEST_HORIZON, M};
use cup_check::plan::Plan;
use cup_check::raw::RawState;
use cup_check::samples::document_cup;

/// The answer for the plan with every section after a change.
fn changed(change: impl Fn(&mut Plan)) -> (usize, usize) {
    let mut plan = every_section();
    change(&mut plan);
    refusal_of_plan(&plan)
}

#[test]
fn values_at_their_limits_are_accepted() {
    assert_eq!(refusal_of_plan(&every_section()), (0, 0));
    assert_eq!(changed(|plan| plan.horizon = LARGEST_HORIZON), (0, 0));
    let smallest = Plan::new(1).integrator(0, 1);
    assert_eq!(refusal_of_plan(&smallest), (0, 0));
    assert_eq!(encode(&smallest).len(), 52);
}

#[test]
fn every_planted_cause_is_answered_with_its_entry() {
    let mut counts = [0; Cause::ALL.len()];
    let mut highest_entry = 0;
    for seed in 0..1_500 {
        let mut rng = Rng::new(seed);
        let plan = plans::any(&mut rng);
        for (place, cause) in Cause::ALL.into_iter().enumerate() {
            if let Some(planted) = planted(&mut rng, &plan, cause) {
                assert_eq!(read(&planted.file), Err(planted.refusal), "seed {seed}");
                counts[place] += 1;
                highest_entry = highest_entry.max(planted.refusal.entry);
            }
        }
    }
    println!(
        "planted: {:?}",
        Cause::ALL.into_iter().zip(counts).collect::<Vec<_>>()
    );
    assert!(counts.iter().all(|&count| count >= 500), "{counts:?}");
    assert!(highest_entry >= 250);
}

#[test]
fn of_two_planted_faults_the_lower_number_then_the_lower_entry_is_answered() {
    let mut same_section = 0;
    for seed in 0..3_000 {
        let mut rng = Rng::new(seed);
        let mut plan = plans::any(&mut rng);
        let (first, second) = (rng.pick(&ENTRY_CAUSES), rng.pick(&ENTRY_CAUSES));
        let (Some(one), Some(other)) = (
            plant_in_plan(&mut rng, &mut plan, first),
            plant_in_plan(&mut rng, &mut plan, second),
        ) else {
            continue;
        };
        let expected = (first.number(), one).min((second.number(), other));
        assert_eq!(
            refusal_of_plan(&plan),
            expected,
            "seed {seed}: {first:?} {second:?}"
        );
        same_section += usize::from(first.number() == second.number() && one != other);
    }
    assert!(same_section >= 100, "{same_section}");
}

/// Causes that are planted in one entry and keep the others where they are. A node's kind decides
/// which causes it can carry, so only those for any kind are here.
const ENTRY_CAUSES: [Cause; 15] = [
    Cause::HorizonZero,
    Cause::HorizonAbove,
    Cause::StartBeyond,
    Cause::QuantumBelow,
    Cause::QuantumAbove,
    Cause::FirstValueBeyond,
    Cause::AOutOfPlace,
    Cause::KindAbove,
    Cause::TargetOutOfPlace,
    Cause::SourceOutOfPlace,
    Cause::CoefficientZero,
    Cause::CoefficientBeyond,
    Cause::InputOutOfPlace,
    Cause::ValueBeyond,
    Cause::TickZero,
];

#[test]
fn two_faults_of_one_entry_are_one_answer() {
    let mut highest_entry = 0;
    for seed in 0..1_000 {
        let mut rng = Rng::new(seed);
        let mut plan = plans::any(&mut rng);
        if let Some(entry) = plant_twice_in_one_entry(&mut rng, &mut plan) {
            let (number, answered) = refusal_of_plan(&plan);
            assert!(number >= 8, "seed {seed}");
            assert_eq!(answered, entry, "seed {seed}");
            highest_entry = highest_entry.max(entry);
        }
    }
    assert!(highest_entry >= 250);
}

#[test]
fn a_fault_of_the_file_goes_before_a_fault_of_an_entry() {
    let mut both = 0;
    for seed in 0..1_000 {
        let mut rng = Rng::new(seed);
        let mut plan = plans::any(&mut rng);
        let entry_cause = rng.pick(&ENTRY_CAUSES);
        both += usize::from(plant_in_plan(&mut rng, &mut plan, entry_cause).is_some());
        let cause = Cause::ALL[rng.below(7)];
        let file = plant_in_file(&mut rng, &plan, cause);
        assert_eq!(refusal(&file), (cause.number(), 0), "seed {seed}");
    }
    println!("{both} of 1000 files have a fault of an entry as well");
    assert!(both >= 800, "{both}");
}

#[test]
fn numbers_are_tried_in_order_when_every_section_is_faulty() {
    let mut plan = every_section();
    plan.horizon = 0;
    plan.integrators[1].quantum = 0;
    plan.inputs[1] = M + 1;
    plan.nodes[3].kind = 4;
    plan.links[2].coefficient = 0;
    plan.commands[3].input = 2;
    let file = encode(&plan);
    let mut odd = section_bytes(&plan);
    odd[4].push(0);
    let odd_file = assemble(plan.horizon, &odd);
    assert_eq!(refusal(&odd_file[..43]), (1, 0));
    assert_eq!(refusal(&odd_file[..odd_file.len() - 1]), (2, 0));
    assert_eq!(refusal(&odd_file), (3, 0));
    assert_eq!(refusal(&file), (4, 0));
    plan.horizon = 100;
    assert_eq!(refusal_of_plan(&plan), (5, 1));
    plan.integrators[1].quantum = 1;
    assert_eq!(refusal_of_plan(&plan), (6, 1));
    plan.inputs[1] = M;
    assert_eq!(refusal_of_plan(&plan), (7, 3));
    plan.nodes[3].kind = 3;
    assert_eq!(refusal_of_plan(&plan), (8, 2));
    plan.links[2].coefficient = 1;
    assert_eq!(refusal_of_plan(&plan), (9, 3));
    plan.commands[3].input = 1;
    assert_eq!(refusal_of_plan(&plan), (0, 0));
}

#[test]
fn files_shorter_than_the_header() {
    let file = encode(&every_section());
    for length in 0..44 {
        assert_eq!(refusal(&file[..length]), (1, 0), "{length}");
    }
    assert_eq!(refusal(&file[..44]), (2, 0));
    assert_eq!(refusal(&assemble(1, &Default::default())), (3, 0));
}

#[test]
fn sums_of_offset_and_length_do_not_wrap() {
    // 44 + (2^32 − 44) is 0 in 32 bits; the second offset claims just that.
    let words = [1, 44, u32::MAX - 43, 0, 52, 52, 0, 52, 0, 52, 0, 0, 1];
    let file: Vec<u8> = words.iter().flat_map(|word| word.to_le_bytes()).collect();
    assert_eq!(read(&file).unwrap_err().cause, Cause::NextOffset);
    // The last pair ends at 52 only if its sum wraps.
    let words = [1, 44, 8, 52, 0, 52, 0, 52, u32::MAX, u32::MAX, 53, 0, 1];
    let file: Vec<u8> = words.iter().flat_map(|word| word.to_le_bytes()).collect();
    assert_eq!(read(&file).unwrap_err().cause, Cause::NextOffset);
    let words = [1, 44, 8, 52, 0, 52, 0, 52, 0, 52, u32::MAX, 0, 1];
    let file: Vec<u8> = words.iter().flat_map(|word| word.to_le_bytes()).collect();
    assert_eq!(read(&file).unwrap_err().cause, Cause::FileEnd);
}

#[test]
fn counts_at_and_above_their_limits() {
    let full = plans::Family::Full.plan(&mut Rng::new(1));
    assert_eq!(refusal_of_plan(&full), (0, 0));
    assert_eq!(encode(&full).len(), 4_492);
    for section in Section::ALL {
        let mut sections = section_bytes(&full);
        let bytes = &mut sections[section as usize];
        assert_eq!(bytes.len(), section.most() * section.entry_bytes());
        bytes.extend(vec![0; section.entry_bytes()]);
        let file = assemble(full.horizon, &sections);
        assert_eq!(read(&file).unwrap_err().cause, Cause::TooManyEntries);
        assert_eq!(refusal(&file), (3, 0));
    }
}

#[test]
fn every_odd_length_is_refused() {
    let plan = every_section();
    for section in Section::ALL {
        for part in 1..section.entry_bytes() {
            let mut sections = section_bytes(&plan);
            sections[section as usize].extend(vec![0; part]);
            let file = assemble(plan.horizon, &sections);
            assert_eq!(refusal(&file), (3, 0), "{section:?} {part}");
        }
    }
}

#[test]
fn the_lowest_of_several_faulty_entries_is_answered() {
    assert_eq!(
        changed(|plan| plan
            .links
            .iter_mut()
            .skip(1)
            .for_each(|link| link.coefficient = 0)),
        (8, 1)
    );
    assert_eq!(
        changed(|plan| plan
            .commands
            .iter_mut()
            .skip(2)
            .for_each(|command| command.tick = 101)),
        (9, 2)
    );
    assert_eq!(
        changed(|plan| plan.nodes.iter_mut().for_each(|node| node.a = 99)),
        (7, 0)
    );
    assert_eq!(changed(|plan| plan.inputs = vec![0, M + 1, M + 1]), (6, 1));
    assert_eq!(
        changed(|plan| plan
            .integrators
            .iter_mut()
            .for_each(|entry| entry.quantum = 0)),
        (5, 0)
    );
}

#[test]
fn an_order_fault_is_the_later_entrys() {
    assert_eq!(changed(|plan| plan.links.swap(1, 2)), (8, 2));
    assert_eq!(changed(|plan| plan.links[3] = plan.links[2]), (8, 3));
    assert_eq!(changed(|plan| plan.commands.swap(0, 1)), (9, 1));
    assert_eq!(changed(|plan| plan.commands[2] = plan.commands[1]), (9, 2));
    // A lower target with a higher source, and a lower tick with a higher input, still descend.
    assert_eq!(changed(|plan| plan.links[2].target = 0), (8, 2));
    assert_eq!(
        changed(|plan| (plan.commands[3].tick, plan.commands[3].input) = (49, 1)),
        (9, 3)
    );
}

#[test]
fn a_node_names_lower_sources_only() {
    for (number, sources_below) in (4..8).enumerate() {
        assert_eq!(
            changed(|plan| plan.nodes[number].a = sources_below - 1).0,
            0
        );
        assert_eq!(
            changed(|plan| plan.nodes[number].a = sources_below),
            (7, number)
        );
        if number != 2 {
            assert_eq!(
                changed(|plan| plan.nodes[number].b = sources_below - 1).0,
                0
            );
            assert_eq!(
                changed(|plan| plan.nodes[number].b = sources_below),
                (7, number)
            );
        }
    }
}

#[test]
fn a_refused_file_gives_the_idle_state() {
    let idle = loaded(&Plan::new(1).integrator(0, 1));
    assert_eq!(SIMULATOR.load(&[]).state, idle);
    assert_eq!(RawState::idle(), idle);
    assert_eq!(idle.run.d[0], u32::MAX);
}

#[test]
fn the_section_view_is_part_of_the_file() {
    let file = encode(&document_cup());
    let spans = [44..60, 60..64, 64..64, 64..88, 88..100];
    for (number, span) in spans.into_iter().enumerate() {
        let part = SIMULATOR.section(&file, number);
        assert_eq!(part, &file[span.clone()]);
        assert_eq!(place_in(&file, part), span.start);
    }
    for number in [5, 6, 255, usize::MAX] {
        assert!(SIMULATOR.section(&file, number).is_empty());
    }
}

#[test]
fn the_section_view_of_a_refused_file_is_empty() {
    let plan = every_section();
    let mut rng = Rng::new(5);
    for cause in Cause::ALL {
        let planted = planted(&mut rng, &plan, cause).expect("every section has entries");
        for number in 0..=5 {
            assert!(
                SIMULATOR.section(&planted.file, number).is_empty(),
                "{cause:?}"
            );
        }
    }
}
