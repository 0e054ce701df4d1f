//! Lists of run calls, lazy and eager in any order, from loaded states and from sound states that no
//! run leads to.
//!
//! Each list is compared with the plain machine by [`cup_check::compare`], and each of its calls with
//! the second simulator's engines. Between its calls other states are handed in.

mod between;
mod counts;

use super::signs::count_signs;
use super::variables::{mutant, number};
use super::Outcome;
use between::BetweenCalls;
use counts::{count_engines, count_plan, required};
use cup_check::calls::{SecondSimulator, Simulator};
use cup_check::compare::{continued_list_with_hook, loaded_list_with_hook, Found};
use cup_check::engine::Mutant;
use cup_check::generate::{long_list, run_list, Family, Fill, Rng};
use cup_check::met::Met;

/// Lists that the gate compares at least.
pub const LISTS: u64 = 20_000;

/// One list in so many goes on from a state that is filled by hand.
const CONTINUED_ONCE_IN: usize = 4;

/// One list in so many of the family that runs longest is a long one.
const LONG_ONCE_IN: usize = 140;

/// What to compare on.
#[derive(Clone, Copy, Debug)]
pub struct Campaign {
    /// How many lists.
    pub lists: u64,
    /// Where they start from.
    pub seed: u64,
    /// Which of the second simulator's engines is compared with.
    pub mutant: Mutant,
}

impl Campaign {
    /// A campaign by the variables CUP_LISTS, CUP_SEED and CUP_MUTANT, or the gate's without them.
    pub fn by_variables() -> Campaign {
        Campaign {
            lists: number("CUP_LISTS", LISTS),
            seed: number("CUP_SEED", 0),
            mutant: mutant(Mutant::named, &Mutant::ALL),
        }
    }

    /// Compares a simulator's lists with the second one's, until a few differences are found.
    pub fn run(&self, simulator: &dyn Simulator) -> Outcome {
        let mut outcome = Outcome::new(required());
        let first = Rng::new(self.seed).bits();
        for number in 0..self.lists {
            let drawn = Drawn::new(first, number);
            let found = self.compare(simulator, drawn, &mut outcome.met);
            let described = |difference| {
                let list = format!("list {number} of seed {}", self.seed);
                format!(
                    "{list} ({:?}, {:?}), {difference}",
                    drawn.family, drawn.fill
                )
            };
            if outcome.add_difference(found.err().map(described)) {
                break;
            }
        }
        outcome
    }

    /// `Err` describes the first difference.
    fn compare(&self, simulator: &dyn Simulator, drawn: Drawn, met: &mut Met) -> Found {
        let mut rng = Rng::new(drawn.seed);
        let plan = drawn.family.plan(&mut rng);
        let start = drawn.fill.map(|fill| fill.state(&mut rng, &plan));
        let list = match drawn.long {
            true => long_list(&mut rng, plan.events_per_instant()),
            false => run_list(&mut rng, plan.events_per_instant()),
        };
        count_plan(met, drawn.family, drawn.fill, &plan);
        let mut between = BetweenCalls {
            simulator,
            second: SecondSimulator {
                mutant: self.mutant,
            },
            rng,
            engines: Vec::new(),
        };
        let found = match start {
            None => loaded_list_with_hook(simulator, &plan, &list, met, &mut between),
            Some(state) => {
                count_signs(met, &state);
                continued_list_with_hook(simulator, &plan, &state, &list, met, &mut between)
            }
        };
        count_engines(met, &between.engines);
        found
    }
}

/// Where a list comes from: the families in turn, and of each family loaded states and all fills.
#[derive(Clone, Copy)]
struct Drawn {
    seed: u64,
    family: Family,
    fill: Option<Fill>,
    long: bool,
}

impl Drawn {
    fn new(first: u64, number: u64) -> Drawn {
        let place = number as usize;
        let family = Family::ALL[place % Family::ALL.len()];
        let round = place / Family::ALL.len();
        let filled = round % CONTINUED_ONCE_IN == CONTINUED_ONCE_IN - 1;
        Drawn {
            seed: first.wrapping_add(number),
            family,
            fill: filled.then(|| Fill::ALL[round / CONTINUED_ONCE_IN % Fill::ALL.len()]),
            long: family == Family::Swinging && round % LONG_ONCE_IN == LONG_ONCE_IN / 2,
        }
    }
}
