//! The plan writer on sound states and on others, into buffers of every length.

use super::compare::random_bytes;
use super::variables::number;
use super::{Machine, Outcome};
use crate::state::State;
use cup_check::calls::{SecondSimulator, Simulator};
use cup_check::file::encode;
use cup_check::generate::changes::change_fields;
use cup_check::generate::{plans, Fill, Rng};
use cup_check::limits::{ACCEPTED, REFUSED_UNSOUND};
use cup_check::met::Met;
use cup_check::raw::RawState;

/// States that the gate writes at least.
pub const STATES: u64 = 10_000;

/// How often each answer has to be met.
const ENOUGH: u64 = 1_000;

/// Bytes before and behind a buffer that have to keep their value too.
const MARGIN: usize = 16;

/// What to compare on.
#[derive(Clone, Copy, Debug)]
pub struct Campaign {
    /// How many states.
    pub states: u64,
    /// Where they start from.
    pub seed: u64,
}

impl Campaign {
    /// A campaign by the variables CUP_WRITES and CUP_SEED, or the gate's without them.
    pub fn by_variables() -> Campaign {
        Campaign {
            states: number("CUP_WRITES", STATES),
            seed: number("CUP_SEED", 0),
        }
    }

    /// Compares what a machine writes with what the second simulator writes.
    pub fn run(&self, machine: &dyn Machine) -> Outcome {
        let mut outcome = Outcome::new(required());
        let first = Rng::new(self.seed).bits();
        for number in 0..self.states {
            let mut rng = Rng::new(first.wrapping_add(number));
            let found = compare(machine, &mut rng, &mut outcome.met);
            let seed = self.seed;
            let described = |what| format!("state {number} of seed {seed}: {what}");
            if outcome.add_difference(found.err().map(described)) {
                break;
            }
        }
        outcome
    }
}

/// `Err` describes the first difference.
fn compare(machine: &dyn Machine, rng: &mut Rng, met: &mut Met) -> Result<(), String> {
    let plan = plans::any(rng);
    let mut state = rng.pick(&Fill::ALL).state(rng, &plan);
    if rng.once_in(3) {
        change_fields(rng, &mut state);
    }
    let file = encode(&plan).len();
    let longer = file + 1 + rng.below(60);
    let shorter = rng.below(file);
    met.count("states");
    for length in [file, longer, file - 1, shorter, 0] {
        check_call(machine, rng, &state, length, met)?;
    }
    Ok(())
}

/// Number, length, every field of the state and every byte of the buffer and around it.
fn check_call(
    machine: &dyn Machine,
    rng: &mut Rng,
    state: &RawState,
    length: usize,
    met: &mut Met,
) -> Result<(), String> {
    let mut bytes = random_bytes(rng, length + 2 * MARGIN);
    let mut right_bytes = bytes.clone();
    let buffer = MARGIN..MARGIN + length;
    let handed = State::from(state);
    let written = machine.write(&handed, &mut bytes[buffer.clone()]);
    let expected = SecondSimulator::default().write(state, &mut right_bytes[buffer.clone()]);
    let answered = (written.number, written.length);
    let right = (expected.number, expected.length);
    if answered != right {
        return Err(format!("{answered:?} into {length} bytes, not {right:?}"));
    }
    if let Some(place) = (0..bytes.len()).find(|&place| bytes[place] != right_bytes[place]) {
        let place = place as i64 - MARGIN as i64;
        return Err(format!("byte {place} of {length} is wrong"));
    }
    let differences = handed.differences(&written.state);
    if !differences.is_empty() {
        return Err(format!("another state: {}", differences.join(", ")));
    }
    if written.number == ACCEPTED {
        check_loaded(machine, state, &bytes[buffer][..written.length])?;
    }
    count(met, state, length, written.number);
    Ok(())
}

/// What is written loads as the start of the same plan.
fn check_loaded(machine: &dyn Machine, state: &RawState, file: &[u8]) -> Result<(), String> {
    let loaded = machine.load(file);
    let plan = state.plan.to_plan().ok_or("a count above its limit")?;
    let start = State::from(&RawState::start(&plan));
    let differences = start.differences(&loaded.state);
    if (loaded.number, loaded.entry) != (ACCEPTED, 0) || !differences.is_empty() {
        let (number, differences) = (loaded.number, differences.join(", "));
        return Err(format!("what is written loads by {number}: {differences}"));
    }
    Ok(())
}

/// What has to be met.
fn required() -> Met {
    let mut met = Met::default();
    met.require("states", STATES);
    met.require(WRITTEN, ENOUGH);
    met.require_each(SHORT, ENOUGH);
    met.require_each(UNSOUND, ENOUGH);
    met
}

const WRITTEN: &str = "plans written and loaded again";

/// Buffers too short, by one byte or by more.
const SHORT: [&str; 2] = ["buffers short by one byte", "buffers shorter"];

/// Calls with a state that is not sound, by a buffer that is long enough and by one that is not.
const UNSOUND: [&str; 2] = ["not sound", "not sound, and a short buffer"];

fn count(met: &mut Met, state: &RawState, length: usize, number: usize) {
    let file = state.plan.to_plan().map_or(0, |plan| encode(&plan).len());
    met.count(match number {
        ACCEPTED => WRITTEN,
        REFUSED_UNSOUND => UNSOUND[usize::from(length < file)],
        _ => SHORT[usize::from(length + 1 < file)],
    });
}
