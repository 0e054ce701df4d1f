//! The proved calls compared with the second simulator: here on files of every sort, in the modules
//! below on states, over lists of run calls, and on what the listing program prints.
//!
//! Every file, state and list follows from a seed and its own number, so that a difference found
//! once can be found again.

mod compare;
mod counts;
pub mod instants;
pub mod listings;
pub mod lists;
mod sides;
mod signs;
pub mod soundness;
pub mod starts;
pub mod tables;
mod variables;
pub mod writes;

pub use sides::{Machine, ProvedCalls, Reader, SecondReader};
pub use signs::{count_signs, SIGNS};

use compare::compare;
use counts::{count_file, required};
use cup_check::file::Mutant;
use cup_check::generate::files::{any, next_to};
use cup_check::generate::{Origin, Rng};
use cup_check::met::Met;
use cup_check::samples;
use variables::{mutant, number};

/// Files that the gate compares at least.
pub const FILES: u64 = 200_000;

/// Samples up to this length are followed by every file one step away from them.
const SHORT_SAMPLE_BYTES: usize = 300;

/// How many differences are described before a campaign ends.
const MOST_DIFFERENCES: usize = 5;

/// What to compare on.
#[derive(Clone, Copy, Debug)]
pub struct Campaign {
    /// How many files.
    pub files: u64,
    /// Where the random ones start from.
    pub seed: u64,
    /// Which of the second simulator's readers is compared with.
    pub mutant: Mutant,
}

/// What a campaign has found.
#[derive(Debug)]
pub struct Outcome {
    /// What was compared and how it was answered, and what has to be met.
    pub met: Met,
    /// The first differences; none if all answers agree.
    pub differences: Vec<String>,
}

impl Outcome {
    /// Nothing yet, of what has to be met.
    fn new(required: Met) -> Outcome {
        Outcome {
            met: required,
            differences: Vec::new(),
        }
    }

    /// Adds a difference if there is one; answers whether enough are described.
    fn add_difference(&mut self, difference: Option<String>) -> bool {
        self.differences.extend(difference);
        self.differences.len() >= MOST_DIFFERENCES
    }
}

impl Campaign {
    /// A campaign by the variables CUP_FILES, CUP_SEED and CUP_MUTANT, or the gate's without them.
    pub fn by_variables() -> Campaign {
        Campaign {
            files: number("CUP_FILES", FILES),
            seed: number("CUP_SEED", 0),
            mutant: mutant(Mutant::named, &Mutant::ALL),
        }
    }

    /// Compares a reader's calls with the second simulator's, until a few differences are found.
    pub fn run(&self, reader: &dyn Reader) -> Outcome {
        let second = SecondReader::new(self.mutant);
        let mut outcome = Outcome::new(required());
        let first = Rng::new(self.seed).bits();
        let random = (0..).map(|number| random_file(first.wrapping_add(number)));
        let files = next_to_samples().chain(random);
        for (number, (origin, mut rng, file)) in (0..self.files).zip(files) {
            let expected = second.read(&file);
            count_file(&mut outcome.met, origin, &file, &expected);
            let found = compare(
                reader,
                &second,
                &expected,
                &file,
                &mut rng,
                &mut outcome.met,
            );
            let described = |difference| {
                let seed = self.seed;
                format!(
                    "file {number} of seed {seed} ({origin:?}, {}): {difference}",
                    shown(&file)
                )
            };
            if outcome.add_difference(found.err().map(described)) {
                break;
            }
        }
        outcome
    }
}

/// A file with the generator that its comparison draws from.
type Drawn = (Origin, Rng, Vec<u8>);

/// The samples, and every file one step away from the short ones. They follow from no seed.
fn next_to_samples() -> impl Iterator<Item = Drawn> {
    let files = samples::all().into_iter().flat_map(|sample| {
        let mut files = match sample.file.len() <= SHORT_SAMPLE_BYTES {
            true => next_to(&sample.file),
            false => Vec::new(),
        };
        files.push(sample.file);
        files
    });
    let numbered = (0..).zip(files);
    numbered.map(|(number, file)| (Origin::NextToSample, Rng::new(number), file))
}

fn random_file(seed: u64) -> Drawn {
    let mut rng = Rng::new(seed);
    let (origin, file) = any(&mut rng);
    (origin, rng, file)
}

/// The bytes of a file, those of a long one in part.
fn shown(file: &[u8]) -> String {
    let most = 160;
    let bytes = file.iter().take(most).map(|byte| format!("{byte:02x}"));
    let rest = if file.len() > most { ".." } else { "" };
    format!("{} bytes: {}{rest}", file.len(), bytes.collect::<String>())
}
