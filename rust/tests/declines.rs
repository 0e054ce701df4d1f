//! Declines 10 to 14, and what a declined call leaves alone.

mod common;

use common::{loaded, run, MARK, SIMULATOR};
use cup_check::calls::{Ran, Simulator};
use cup_check::engine::Engine;
use cup_check::file::encode;
use cup_check::raw::RawState;
use cup_check::samples::document_cup;

/// Bytes that one instant of the document's cup may write: (2 + 1) × 12.
const INSTANT_BYTES: usize = 36;

fn start() -> RawState {
    loaded(&document_cup())
}

fn unsound() -> RawState {
    let mut state = start();
    state.run.s[0] += 1;
    state
}

fn run_with(engine: Engine, state: &RawState, budget: u64, length: usize) -> (Ran, Vec<u8>) {
    let mut buffer = vec![MARK; length];
    let ran = SIMULATOR.run(engine, state, budget, &mut buffer);
    (ran, buffer)
}

/// Asserts that both runs decline with a number and change nothing.
fn assert_declined(state: &RawState, budget: u64, length: usize, number: usize) {
    for engine in Engine::BOTH {
        let (ran, buffer) = run_with(engine, state, budget, length);
        let expected = Ran {
            number,
            status: 0,
            integrator: 0,
            written: 0,
            state: state.clone(),
        };
        assert_eq!(ran, expected);
        assert!(buffer.iter().all(|&byte| byte == MARK));
    }
}

#[test]
fn runs_decline_by_10_then_11_then_12() {
    assert_declined(&unsound(), 1_025, 0, 10);
    assert_declined(&unsound(), 1, INSTANT_BYTES, 10);
    assert_declined(&start(), 1_025, 0, 11);
    assert_declined(&start(), 1_025, 1_025 * INSTANT_BYTES, 11);
    assert_declined(&start(), u64::MAX, 0, 11);
    assert_declined(&start(), u64::MAX / 36 + 1, INSTANT_BYTES, 11);
    assert_declined(&start(), 1_024, 1_024 * INSTANT_BYTES - 1, 12);
    assert_declined(&start(), 1, INSTANT_BYTES - 1, 12);
    assert_declined(&start(), 1, 0, 12);
}

#[test]
fn the_largest_budget_and_the_shortest_buffer_are_accepted() {
    for engine in Engine::BOTH {
        assert_eq!(
            run_with(engine, &start(), 1_024, 1_024 * INSTANT_BYTES)
                .0
                .number,
            0
        );
        assert_eq!(run_with(engine, &start(), 1, INSTANT_BYTES).0.number, 0);
        assert_eq!(run_with(engine, &start(), 0, 0).0.number, 0);
    }
}

#[test]
fn bytes_after_those_written_keep_their_value() {
    for engine in Engine::BOTH {
        let (ran, buffer) = run_with(engine, &start(), 2, 2 * INSTANT_BYTES + 7);
        assert_eq!(ran.written, 24);
        assert!(buffer[24..].iter().all(|&byte| byte == MARK));
    }
}

#[test]
fn the_writer_declines_by_10_then_13() {
    let file = encode(&document_cup());
    for (state, length, number) in [
        (unsound(), 0, 10),
        (unsound(), file.len(), 10),
        (start(), 0, 13),
        (start(), file.len() - 1, 13),
    ] {
        let mut buffer = vec![MARK; length];
        let written = SIMULATOR.write(&state, &mut buffer);
        assert_eq!((written.number, written.length), (number, 0));
        assert_eq!(written.state, state);
        assert!(buffer.iter().all(|&byte| byte == MARK));
    }
}

#[test]
fn the_writer_leaves_bytes_after_the_file_alone() {
    let file = encode(&document_cup());
    let mut buffer = vec![MARK; file.len() + 3];
    let written = SIMULATOR.write(&start(), &mut buffer);
    assert_eq!((written.number, written.length), (0, 100));
    assert_eq!(buffer[..100], file);
    assert_eq!(buffer[100..], [MARK; 3]);
}

#[test]
fn the_position_call_declines_by_10_then_14() {
    for (state, integrator, number) in [
        (unsound(), 2, 10),
        (unsound(), 0, 10),
        (start(), 2, 14),
        (start(), 31, 14),
        (start(), 32, 14),
        (start(), usize::MAX, 14),
    ] {
        let answer = SIMULATOR.position(&state, integrator);
        assert_eq!((answer.number, answer.value), (number, 0));
        assert_eq!(answer.state, state);
    }
}

#[test]
fn a_declined_call_feeds_nothing() {
    let (first, _) = run(Engine::Lazy, &start(), 1);
    let (declined, _) = run_with(Engine::Lazy, &first.state, 1_025, 0);
    let (second, bytes) = run(Engine::Lazy, &declined.state, 1);
    assert_eq!(second.state.run.clocks.instants, 2);
    assert_eq!(common::events(&bytes), [(6, 2, -3)]);
}
