//! The test of "A sound state" on states of every sort.
//!
//! A base is a sound state, filled in one of the ways of [`Fill`] for a random plan. It is compared
//! as it is, and then changed many times in one or two fields near the limits of a clause. A few
//! states have a plan without integrators instead.

mod counts;

pub use counts::ClausePart;

use super::variables::{mutant, number};
use super::{Machine, Outcome};
use crate::state::State;
use counts::{count_state, required};
use cup_check::generate::changes::{change_fields, without_integrators};
use cup_check::generate::{Breakage, Family, Fill, Rng};
use cup_check::raw::RawState;
use cup_check::sound::{broken_by, Clause, Mutant};

/// States that the gate compares at least, bases and states without integrators among them.
pub const STATES: u64 = 1_150_000;

/// States that come from one base, the base among them.
const OF_ONE_BASE: u64 = 40;

/// What to compare on.
#[derive(Clone, Copy, Debug)]
pub struct Campaign {
    /// How many states.
    pub states: u64,
    /// Where they start from.
    pub seed: u64,
    /// Which of the second simulator's tests is compared with.
    pub mutant: Mutant,
}

/// How a state comes from its base.
#[derive(Clone, Copy, Debug, PartialEq, Eq)]
pub enum Origin {
    /// The base itself, filled in this way.
    Base(Fill),
    /// One or two fields changed.
    Changed,
    /// One clause broken and all others kept.
    Broken(Breakage),
    /// Nothing of the base: a plan without integrators.
    WithoutIntegrators,
}

impl Campaign {
    /// A campaign by the variables CUP_STATES, CUP_SEED and CUP_MUTANT, or the gate's without them.
    pub fn by_variables() -> Campaign {
        Campaign {
            states: number("CUP_STATES", STATES),
            seed: number("CUP_SEED", 0),
            mutant: mutant(Mutant::named, &Mutant::all()),
        }
    }

    /// Compares a machine's test with the second simulator's, until a few differences are found.
    pub fn run(&self, machine: &dyn Machine) -> Outcome {
        let table = self.mutant.soundness();
        let mut outcome = Outcome::new(required());
        let first = Rng::new(self.seed).bits();
        for number in 0..self.states.div_ceil(OF_ONE_BASE) {
            let mut rng = Rng::new(first.wrapping_add(number));
            let base = Base::drawn(&mut rng, number);
            let mut state = base.state.clone();
            let left = self.states - number * OF_ONE_BASE;
            for step in 0..left.min(OF_ONE_BASE) {
                let origin = base.origin(&mut rng, step);
                base.fill_state(&mut rng, origin, &mut state);
                let broken = broken_by(&table, &state);
                count_state(&mut outcome.met, &state, &broken, origin);
                let found = compare(machine, &state, &broken);
                let described = |what| {
                    let base = base.described(&state);
                    let state = format!("state {step} of base {number} of seed {}", self.seed);
                    format!("{state}, {origin:?} from {base}: {what}")
                };
                if outcome.add_difference(found.err().map(described)) {
                    return outcome;
                }
            }
        }
        outcome
    }
}

/// A sound state from which others come.
struct Base {
    family: Family,
    fill: Fill,
    state: RawState,
}

impl Base {
    /// Families and fills in turn.
    fn drawn(rng: &mut Rng, number: u64) -> Base {
        let number = number as usize;
        let family = Family::ALL[number % Family::ALL.len()];
        let fill = Fill::ALL[number / Family::ALL.len() % Fill::ALL.len()];
        let plan = family.plan(rng);
        let state = fill.state(rng, &plan);
        Base {
            family,
            fill,
            state,
        }
    }

    fn origin(&self, rng: &mut Rng, step: u64) -> Origin {
        match rng.below(500) {
            _ if step == 0 => Origin::Base(self.fill),
            0 => Origin::WithoutIntegrators,
            1..=50 => Origin::Broken(rng.pick(&Breakage::ALL)),
            _ => Origin::Changed,
        }
    }

    /// Fills a state from this one; but for the base itself it is another.
    fn fill_state(&self, rng: &mut Rng, origin: Origin, state: &mut RawState) {
        state.clone_from(&self.state);
        match origin {
            Origin::Base(_) => return,
            Origin::Changed => (),
            Origin::WithoutIntegrators => *state = without_integrators(rng),
            Origin::Broken(breakage) => {
                // Where the base does not lend itself to it, fields are changed below.
                if let Some((broken, _)) = breakage.apply(rng, &self.state) {
                    *state = broken;
                }
            }
        }
        while *state == self.state {
            change_fields(rng, state);
        }
    }

    /// How it came about, and what was changed, in part if it is much.
    fn described(&self, state: &RawState) -> String {
        let most = 6;
        let changes = State::from(&self.state).differences(&State::from(state));
        let more = if changes.len() > most { ", .." } else { "" };
        let shown = changes[..changes.len().min(most)].join(", ");
        format!("{:?}, {:?}, {shown}{more}", self.family, self.fill)
    }
}

/// `Err` describes a difference.
fn compare(machine: &dyn Machine, state: &RawState, broken: &[Clause]) -> Result<(), String> {
    match (machine.sound(&State::from(state)), broken.is_empty()) {
        (true, false) => Err(format!("said to be sound, but it breaks {broken:?}")),
        (false, true) => Err("said to be not sound, but it breaks nothing".to_string()),
        _ => Ok(()),
    }
}
