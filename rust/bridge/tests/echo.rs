//! States keep every number between Rust, C and the proved library, and each field means the same to
//! all three.
//!
//! A state handed back shows that nothing is lost on the way. That two fields are not exchanged in one
//! of the declarations shows otherwise: between C and Rust by the place of each name, between Rust and
//! the library by what the calls make of a field.

mod common;

use common::compiled;
use cup_bridge::machine::{echo, instant, sound, write};
use cup_bridge::state::{Loaded, Plan, Positioned, Ran, Running, State, Tables, Written};
use cup_check::calls::{SecondSimulator, Simulator};
use cup_check::engine::Engine;
use cup_check::generate::{plans, Fill, Rng};
use cup_check::limits::{EVENT_BYTES, INPUTS, INTEGRATORS, LONGEST_FILE};
use cup_check::raw::RawState;
use std::collections::BTreeSet;
use std::io::Write;
use std::mem::offset_of;
use std::path::PathBuf;
use std::process::{Command, Stdio};
use std::sync::OnceLock;

/// The program in C, compiled once for all tests.
static PROGRAM: OnceLock<PathBuf> = OnceLock::new();

/// A state with every entry filled; no two entries hold the same number.
fn filled(seed: u64) -> State {
    let mut rng = Rng::new(seed);
    let mut state = State::from(&RawState::idle());
    state.fill(|| rng.bits());
    let entries = state.fields().into_iter().flat_map(|field| field.entries);
    let entries: Vec<u64> = entries.collect();
    let different: BTreeSet<u64> = entries.iter().copied().collect();
    assert_eq!((entries.len(), different.len()), (1_290, 1_290));
    state
}

/// What the program in C prints.
fn printed(word: &str, input: &str) -> String {
    let mut program = Command::new(PROGRAM.get_or_init(|| compiled("echo")))
        .arg(word)
        .stdin(Stdio::piped())
        .stdout(Stdio::piped())
        .spawn()
        .expect("the program starts");
    let mut given = program.stdin.take().expect("it is piped");
    given.write_all(input.as_bytes()).expect("it reads");
    drop(given);
    let output = program.wait_with_output().expect("the program ends");
    assert!(output.status.success(), "{}", output.status);
    String::from_utf8(output.stdout).expect("text")
}

#[test]
fn a_state_filled_with_different_numbers_comes_back_to_rust() {
    for seed in 0..20 {
        let state = filled(seed);
        let none: [String; 0] = [];
        assert_eq!(state.differences(&echo(&state)), none);
        assert!(!sound(&state));
    }
}

#[test]
fn a_state_filled_with_different_numbers_comes_back_through_c() {
    let fields = filled(7).fields();
    let entries = fields.iter().flat_map(|field| &field.entries);
    let numbers: String = entries.map(|entry| format!("{entry}\n")).collect();
    let mut expected = String::new();
    for field in &fields {
        let entries: String = field
            .entries
            .iter()
            .map(|entry| format!(" {entry}"))
            .collect();
        expected += &format!("{}{entries}\n", field.name);
    }
    assert_eq!(printed("state", &numbers), expected);
}

/// What Rust says of its own structs, in the program's words.
fn layout() -> String {
    let mut lines = vec![
        format!("CupPlan {}", size_of::<Plan>()),
        format!("CupRunning {}", size_of::<Running>()),
        format!("CupState {}", size_of::<State>()),
        format!("CupLoaded {}", size_of::<Loaded>()),
        format!("CupWritten {}", size_of::<Written>()),
        format!("CupRan {}", size_of::<Ran>()),
        format!("CupPositioned {}", size_of::<Positioned>()),
        format!("CupTables {}", size_of::<Tables>()),
    ];
    macro_rules! places {
        ($($kind:ident: $($field:ident)+;)+) => {$($(
            let (kind, field) = (stringify!($kind), stringify!($field));
            lines.push(format!("Cup{kind}.{field} {}", offset_of!($kind, $field)));
        )+)+};
    }
    places!(
        Loaded: number entry state;
        Written: number length state;
        Ran: number status integrator written state;
        Positioned: number value state;
        Tables: ranges reach values;
    );
    for field in filled(0).fields() {
        let (offset, width, count) = (field.offset, field.width, field.entries.len());
        lines.push(format!("{} {offset} {width} {count}", field.name));
    }
    lines.join("\n") + "\n"
}

#[test]
fn every_field_has_the_same_place_in_c_and_in_rust() {
    assert_eq!(printed("layout", ""), layout());
    assert_eq!(size_of::<State>(), 9_808);
}

/// What the calls that look at every field make of a state.
#[derive(Debug, PartialEq, Eq)]
struct Answers {
    plan: (usize, Vec<u8>),
    runs: Vec<(usize, usize, usize, Vec<u8>, State)>,
}

/// A buffer of these is long enough for every instant.
const INSTANT_BYTES: usize = (INTEGRATORS + INPUTS) * EVENT_BYTES;

fn proved(state: &State) -> Answers {
    let mut file = vec![0; LONGEST_FILE];
    let number = write(state, &mut file).number;
    let runs = Engine::BOTH.map(|engine| {
        let mut events = vec![0; INSTANT_BYTES];
        let ran = *instant(engine, state, &mut events);
        (ran.number, ran.status, ran.integrator, events, ran.state)
    });
    Answers {
        plan: (number, file),
        runs: runs.into(),
    }
}

fn second(state: &State) -> Answers {
    let raw = RawState::from(state);
    let simulator = SecondSimulator::default();
    let mut file = vec![0; LONGEST_FILE];
    let number = simulator.write(&raw, &mut file).number;
    let runs = Engine::BOTH.map(|engine| {
        let mut events = vec![0; INSTANT_BYTES];
        let ran = simulator.run(engine, &raw, 1, &mut events);
        let state = State::from(&ran.state);
        (ran.number, ran.status, ran.integrator, events, state)
    });
    Answers {
        plan: (number, file),
        runs: runs.into(),
    }
}

/// What would be answered if the two fields stood in each other's place.
fn second_exchanged(state: &State, one: usize, other: usize) -> Answers {
    let mut exchanged = state.clone();
    exchanged.exchange(one, other);
    let mut answers = second(&exchanged);
    for (.., state) in &mut answers.runs {
        state.exchange(one, other);
    }
    answers
}

/// The numbers of any two fields of one part, width and length.
fn exchangeable() -> Vec<(usize, usize)> {
    let fields = filled(0).fields();
    let shape = |number: usize| {
        let field = &fields[number];
        let part = field.name.split('.').next();
        (part, field.width, field.entries.len())
    };
    let pairs = (0..fields.len()).flat_map(|one| (0..one).map(move |other| (other, one)));
    pairs
        .filter(|&(one, other)| shape(one) == shape(other))
        .collect()
}

/// States that show every exchange: the library answers them as the second simulator does, and would
/// answer one of them otherwise if any two fields of one shape were exchanged in its declaration.
#[test]
fn every_field_means_the_same_to_the_library_and_to_rust() {
    let mut rng = Rng::new(5);
    let states: Vec<State> = (0..60)
        .map(|number| {
            let plan = plans::any(&mut rng);
            State::from(&Fill::ALL[number % Fill::ALL.len()].state(&mut rng, &plan))
        })
        .collect();
    for state in &states {
        assert_eq!(proved(state), second(state));
    }
    let pairs = exchangeable();
    assert_eq!(pairs.len(), 32);
    for (one, other) in pairs {
        let shows = |state: &&State| second_exchanged(state, one, other) != second(state);
        let names = filled(0).fields();
        assert!(
            states.iter().any(|state| shows(&state)),
            "{} and {}",
            names[one].name,
            names[other].name
        );
    }
}
