//! One instant, by either engine, from sound states that need not be reachable.
//!
//! What is answered is compared with the second simulator's engine, and with its plain machine
//! continued from the same moment.

mod compare;
mod counts;

use super::variables::{mutant, number};
use super::{Machine, Outcome};
use compare::Comparison;
use counts::{count_state, required};
use cup_check::engine::Mutant;
use cup_check::generate::{Family, Fill, Rng};

/// States that the gate compares at least, each by both engines. Five in eight have an instant.
pub const STATES: u64 = 170_000;

/// States that are filled for one plan.
const OF_ONE_PLAN: u64 = 2;

/// What to compare on.
#[derive(Clone, Copy, Debug)]
pub struct Campaign {
    /// How many states.
    pub states: u64,
    /// Where they start from.
    pub seed: u64,
    /// Which of the second simulator's engines is compared with.
    pub mutant: Mutant,
}

impl Campaign {
    /// A campaign by the variables CUP_INSTANTS, CUP_SEED and CUP_MUTANT, or the gate's without them.
    pub fn by_variables() -> Campaign {
        Campaign {
            states: number("CUP_INSTANTS", STATES),
            seed: number("CUP_SEED", 0),
            mutant: mutant(Mutant::named, &Mutant::ALL),
        }
    }

    /// Compares a machine's instants with the second simulator's, until a few differences are found.
    pub fn run(&self, machine: &dyn Machine) -> Outcome {
        let mut outcome = Outcome::new(required());
        let first = Rng::new(self.seed).bits();
        for number in 0..self.states.div_ceil(OF_ONE_PLAN) {
            let mut rng = Rng::new(first.wrapping_add(number));
            // Families in turn, and each family's plans through all fills.
            let family = Family::ALL[number as usize % Family::ALL.len()];
            let fill = Fill::ALL[number as usize / Family::ALL.len() % Fill::ALL.len()];
            let plan = family.plan(&mut rng);
            let left = self.states - number * OF_ONE_PLAN;
            for place in 0..left.min(OF_ONE_PLAN) {
                let state = &fill.state(&mut rng, &plan);
                let comparison = Comparison {
                    machine,
                    mutant: self.mutant,
                    plan: &plan,
                    state,
                };
                count_state(&mut outcome.met, fill, state);
                let found = comparison.check(&mut rng, &mut outcome.met);
                let described = |difference| {
                    let state = format!("state {place} of plan {number} of seed {}", self.seed);
                    format!("{state} ({family:?}, {fill:?}), {difference}")
                };
                if outcome.add_difference(found.err().map(described)) {
                    return outcome;
                }
            }
        }
        outcome
    }
}
