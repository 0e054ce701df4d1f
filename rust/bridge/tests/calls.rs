//! The proved calls from Rust, with answers that are known.

use cup_bridge::machine::{instant, load, position, run, sound, tables};
use cup_bridge::state::{State, Tables};
use cup_bridge::{read, rewrite, section, Answer, Rewritten};
use cup_check::engine::Engine;
use cup_check::file::read::place_in;
use cup_check::samples;
use cup_check::words::{signed_at, word_at};
use std::fs;
use std::path::Path;

fn repository_file(place: &str) -> Vec<u8> {
    let path = Path::new(env!("CARGO_MANIFEST_DIR"))
        .join("../..")
        .join(place);
    fs::read(&path).unwrap_or_else(|error| panic!("{}: {error}", path.display()))
}

fn answer(number: usize, entry: usize) -> Answer {
    Answer { number, entry }
}

#[test]
fn the_samples_are_read() {
    for sample in samples::all() {
        let expected = match sample.name {
            "refused" => answer(8, 4),
            _ => answer(0, 0),
        };
        assert_eq!(read(&sample.file), expected, "{}", sample.name);
    }
    assert_eq!(read(&[]), answer(1, 0));
    assert_eq!(read(&[0; 43]), answer(1, 0));
    assert_eq!(read(&[0; 44]), answer(2, 0));
}

/// Document 01: "Pairs: (44,16) (60,4) (64,0) (64,24) (88,12)". The nodes have a place, though there are
/// none.
#[test]
fn a_section_is_a_part_of_the_callers_file() {
    let file = repository_file("plans/sample.plan");
    for (number, (offset, length)) in [(44, 16), (60, 4), (64, 0), (64, 24), (88, 12)]
        .into_iter()
        .enumerate()
    {
        let part = section(&file, number);
        assert_eq!(part, &file[offset..offset + length]);
        assert_eq!(place_in(&file, part), offset);
    }
    let is_none = |file: &[u8], number| {
        let part = section(file, number);
        (place_in(file, part), part.len()) == (0, 0)
    };
    for number in [5, 1 << 32, usize::MAX] {
        assert!(is_none(&file, number));
    }
    let refused = repository_file("plans/refused.plan");
    for number in 0..=5 {
        assert!(is_none(&refused, number));
    }
}

#[test]
fn a_plan_is_rewritten() {
    let file = repository_file("plans/full.plan");
    let mut buffer = vec![7; file.len() + 3];
    let whole = Rewritten {
        number: 0,
        length: file.len(),
    };
    assert_eq!(rewrite(&file, &mut buffer), whole);
    assert_eq!(&buffer[..file.len()], file);
    assert_eq!(&buffer[file.len()..], [7, 7, 7]);
    let mut short = vec![7; file.len() - 1];
    let declined = Rewritten {
        number: 13,
        length: 0,
    };
    assert_eq!(rewrite(&file, &mut short), declined);
    assert!(short.iter().all(|&byte| byte == 7));
}

/// The events in bytes as (tick, source, value).
fn events(bytes: &[u8]) -> Vec<(u32, u32, i32)> {
    let events = bytes.chunks_exact(12);
    events
        .map(|event| (word_at(event, 0), word_at(event, 4), signed_at(event, 8)))
        .collect()
}

/// Where the two integrators of document 01's cup are.
fn positions(state: &State) -> [i64; 2] {
    [0, 1].map(|i| {
        let answer = position(state, i);
        assert_eq!((answer.number, &answer.state), (0, state));
        answer.value
    })
}

/// Document 01's "A cup in full": events, status, clock, instants and updates, and the positions.
#[test]
fn a_cup_in_full_instant_by_instant() {
    let start = load(&repository_file("plans/sample.plan")).state;
    assert_eq!((start.run.s[..2].to_vec(), start.run.d[0]), (vec![3, 0], 4));
    for (engine, updates) in [(Engine::Lazy, [2, 3]), (Engine::Eager, [2, 4])] {
        let mut buffer = [7; 40];
        let first = instant(engine, &start, &mut buffer);
        assert_eq!((first.number, first.status, first.integrator), (0, 0, 0));
        assert_eq!(events(&buffer[..first.written]), [(4, 0, 12)]);
        assert_eq!(buffer[12..], [7; 28]);
        assert_eq!(first.state.run.clocks.updates, updates[0]);
        let second = instant(engine, &first.state, &mut buffer[..36]);
        assert_eq!((second.number, second.status), (0, 1));
        assert_eq!(events(&buffer[..second.written]), [(6, 2, -3)]);
        let run = &second.state.run;
        assert_eq!(
            (run.clocks.clock, run.clocks.instants, run.clocks.updates),
            (6, 2, updates[1])
        );
        assert_eq!(positions(&second.state), [18, 24]);
        // Finished: nothing more happens.
        let third = instant(engine, &second.state, &mut buffer[..36]);
        assert_eq!((third.number, third.status, third.written), (0, 1, 0));
        assert_eq!(third.state, second.state);
        // One byte short.
        let short = instant(engine, &start, &mut [7; 35]);
        assert_eq!((short.number, short.status, short.written), (12, 0, 0));
        assert_eq!(short.state, start);
    }
}

/// The same by one call, and what the calls decline.
#[test]
fn a_cup_in_full_by_one_run() {
    let start = load(&repository_file("plans/sample.plan")).state;
    assert_eq!(positions(&start), [0, 0]);
    for (engine, updates) in [(Engine::Lazy, 3), (Engine::Eager, 4)] {
        let mut buffer = [7; 64 * 36];
        let ran = run(engine, &start, 64, &mut buffer);
        assert_eq!((ran.number, ran.status, ran.integrator), (0, 1, 0));
        assert_eq!(events(&buffer[..ran.written]), [(4, 0, 12), (6, 2, -3)]);
        assert!(buffer[24..].iter().all(|&byte| byte == 7));
        let after = &ran.state.run.clocks;
        assert_eq!(
            (after.clock, after.instants, after.updates),
            (6, 2, updates)
        );
        assert_eq!(positions(&ran.state), [18, 24]);
        // A run of no instant tells the status and needs no buffer.
        let none = run(engine, &start, 0, &mut []);
        assert_eq!((none.number, none.status, none.written), (0, 0, 0));
        assert_eq!(none.state, start);
        let declined = |state: &State, budget, length: usize| {
            let mut buffer = vec![7; length];
            let ran = run(engine, state, budget, &mut buffer);
            assert_eq!((ran.status, ran.integrator, ran.written), (0, 0, 0));
            assert_eq!(ran.state, *state);
            assert!(buffer.iter().all(|&byte| byte == 7));
            ran.number
        };
        assert_eq!(declined(&start, 1_025, 1_025 * 36), 11);
        assert_eq!(declined(&start, u64::MAX, 0), 11);
        assert_eq!(declined(&start, 1_024, 1_024 * 36 - 1), 12);
        let mut unsound = start.clone();
        unsound.run.clocks.updates = 1;
        assert_eq!(declined(&unsound, 1_025, 0), 10);
        assert_eq!(position(&unsound, 2).number, 10);
    }
    for integrator in [2, 32, 1 << 32, usize::MAX] {
        let none = position(&start, integrator);
        assert_eq!((none.number, none.value, &none.state), (14, 0, &start));
    }
}

#[test]
fn a_sound_state_has_tables_and_another_has_none() {
    let mut state = load(&repository_file("plans/sample.plan")).state;
    assert!(sound(&state));
    let found = tables(&state);
    assert_eq!(found.ranges[..4], [0, 1, 2, 0]);
    // The input reaches the first integrator, the first integrator the second.
    assert_eq!(found.reach[..4], [2, 0, 1, 0]);
    assert_eq!(found.values[..4], [0, 0, 3, 0]);
    state.run.clocks.updates = u64::MAX;
    assert!(!sound(&state));
    assert_eq!(*tables(&state), Tables::NONE);
}
