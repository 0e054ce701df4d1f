//! Load on files of every sort: number, entry, and the start state or the idle state field by field.

use super::variables::number;
use super::{Machine, Outcome};
use crate::state::State;
use cup_check::calls::{Loaded, SecondSimulator, Simulator};
use cup_check::file::encode;
use cup_check::generate::{files, Family, Rng};
use cup_check::limits::{ACCEPTED, NEVER, REFUSED_COMMAND};
use cup_check::met::Met;
use cup_check::samples;

/// Files that the gate loads at least.
pub const FILES: u64 = 40_000;

/// How often each number has to be met.
const ENOUGH: u64 = 100;

/// How often a plan of each family has to be accepted.
const ENOUGH_OF_A_FAMILY: u64 = 1_000;

/// What to compare on.
#[derive(Clone, Copy, Debug)]
pub struct Campaign {
    /// How many files.
    pub files: u64,
    /// Where they start from.
    pub seed: u64,
}

impl Campaign {
    /// A campaign by the variables CUP_STARTS and CUP_SEED, or the gate's without them.
    pub fn by_variables() -> Campaign {
        Campaign {
            files: number("CUP_STARTS", FILES),
            seed: number("CUP_SEED", 0),
        }
    }

    /// Compares what a machine loads with what the second simulator loads.
    pub fn run(&self, machine: &dyn Machine) -> Outcome {
        let mut outcome = Outcome::new(required());
        let first = Rng::new(self.seed).bits();
        let samples = samples::all().into_iter();
        let samples = samples.map(|sample| ("sample".to_string(), sample.file));
        let random = (0..).map(|number| any(number, &mut Rng::new(first.wrapping_add(number))));
        let files = samples.chain(random);
        for (number, (origin, file)) in (0..self.files).zip(files) {
            let expected = SecondSimulator::default().load(&file);
            count(&mut outcome.met, &origin, &expected);
            let found = compare(machine, &file, &expected);
            let seed = self.seed;
            let described = |what| format!("file {number} of seed {seed} ({origin}): {what}");
            if outcome.add_difference(found.err().map(described)) {
                break;
            }
        }
        outcome
    }
}

/// In turn an accepted plan of each family, then as many files of any sort.
fn any(number: u64, rng: &mut Rng) -> (String, Vec<u8>) {
    let families = Family::ALL.len();
    match Family::ALL.get(number as usize % (2 * families)) {
        Some(family) => (format!("{family:?}"), encode(&family.plan(rng))),
        None => {
            let (_, file) = files::any(rng);
            ("any".to_string(), file)
        }
    }
}

/// `Err` describes the first difference.
fn compare(machine: &dyn Machine, file: &[u8], expected: &Loaded) -> Result<(), String> {
    let loaded = machine.load(file);
    let answered = (loaded.number, loaded.entry);
    let right = (expected.number, expected.entry);
    if answered != right {
        return Err(format!("number and entry {answered:?}, not {right:?}"));
    }
    let differences = State::from(&expected.state).differences(&loaded.state);
    match differences.is_empty() {
        true => Ok(()),
        false => Err(format!("state: {}", differences.join(", "))),
    }
}

/// What has to be met: every number, plans of every family, and start states with an integrator that is
/// due and with one that is never due.
fn required() -> Met {
    let mut met = Met::default();
    met.require("files loaded", FILES);
    let numbers = (ACCEPTED..=REFUSED_COMMAND).map(|number| format!("number {number}"));
    met.require_each(numbers, ENOUGH);
    met.require_each(DUE, ENOUGH);
    let families = Family::ALL.map(|family| accepted(&format!("{family:?}")));
    met.require_each(families, ENOUGH_OF_A_FAMILY);
    met
}

const DUE: [&str; 2] = ["accepted, one is due", "accepted, one is never due"];

fn accepted(origin: &str) -> String {
    format!("accepted, {origin}")
}

fn count(met: &mut Met, origin: &str, loaded: &Loaded) {
    met.count("files loaded");
    met.count(format!("number {}", loaded.number));
    if loaded.number == ACCEPTED {
        met.count(accepted(origin));
        let dues = &loaded.state.run.d[..loaded.state.plan.counts.n];
        let never = |due: &u32| *due == NEVER;
        met.count_if(!dues.iter().all(never), DUE[0]);
        met.count_if(dues.iter().any(never), DUE[1]);
    }
}
