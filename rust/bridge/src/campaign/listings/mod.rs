//! The listing program on inputs of every sort: what it prints, byte for byte.

mod counts;
mod inputs;
mod program;

pub use inputs::{Input, Origin};
pub use program::{Lister, Program};

use super::variables::number;
use super::{shown, Outcome};
use counts::{count_input, required};
use cup_check::generate::Rng;
use cup_check::listing::listing;

/// Inputs that the gate compares at least.
pub const INPUTS_COMPARED: u64 = 6_000;

/// What to compare on.
#[derive(Clone, Copy, Debug)]
pub struct Campaign {
    /// How many inputs.
    pub inputs: u64,
    /// Where they start from.
    pub seed: u64,
}

impl Campaign {
    /// A campaign by the variables CUP_LISTINGS and CUP_SEED, or the gate's without them.
    pub fn by_variables() -> Campaign {
        Campaign {
            inputs: number("CUP_LISTINGS", INPUTS_COMPARED),
            seed: number("CUP_SEED", 0),
        }
    }

    /// Compares what a program prints with the second simulator's listing.
    pub fn run(&self, lister: &dyn Lister) -> Outcome {
        let mut outcome = Outcome::new(required());
        let first = Rng::new(self.seed).bits();
        for number in 0..self.inputs {
            let input = Input::drawn(&mut Rng::new(first.wrapping_add(number)), number);
            let expected = listing(&input.bytes);
            count_input(&mut outcome.met, &input, &expected);
            let found = compare(lister, &input, expected.as_bytes());
            let described = |what| {
                let origin = format!("input {number} of seed {} ({:?}", self.seed, input.origin);
                format!("{origin}, {}): {what}", shown(&input.bytes))
            };
            if outcome.add_difference(found.err().map(described)) {
                break;
            }
        }
        outcome
    }
}

/// `Err` describes the first difference.
pub fn compare(lister: &dyn Lister, input: &Input, expected: &[u8]) -> Result<(), String> {
    let printed = lister.list(&input.bytes, input.pieces)?;
    if printed == expected {
        return Ok(());
    }
    let common = printed
        .iter()
        .zip(expected)
        .take_while(|(one, other)| one == other);
    let place = common.count();
    Err(format!(
        "byte {place} of {} printed: {:?}, where {} bytes are expected: {:?}",
        printed.len(),
        line_at(&printed, place),
        expected.len(),
        line_at(expected, place)
    ))
}

/// The line around a byte, with its end.
fn line_at(text: &[u8], place: usize) -> String {
    let place = place.min(text.len());
    let ends = |&byte: &u8| byte == b'\n';
    let from = text[..place]
        .iter()
        .rposition(ends)
        .map_or(0, |end| end + 1);
    let rest = &text[from..];
    let to = rest.iter().position(ends).map_or(rest.len(), |end| end + 1);
    String::from_utf8_lossy(&rest[..to.min(200)]).into_owned()
}
