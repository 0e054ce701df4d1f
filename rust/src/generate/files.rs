//! Files for comparing two readers, of every sort: accepted, with planted faults, damaged, random and
//! large.

use super::damage::{boundary_word, boundary_words, damaged, random_bytes};
use super::plans;
use super::plant::{plant_in_file, plant_in_plan, plant_twice_in_one_entry, planted};
use super::rng::Rng;
use super::Damage;
use crate::file::encoding::{assemble, section_bytes};
use crate::file::{encode, Cause};
use crate::limits::{Section, LARGEST_HORIZON, WORD_BYTES};
use crate::limits::{REFUSED_COMMAND, REFUSED_HORIZON, REFUSED_SHORT, REFUSED_SIZES};
use crate::plan::Plan;
use crate::words::set_word;
use std::ops::RangeInclusive;

/// How a file comes about.
#[derive(Clone, Copy, Debug, PartialEq, Eq, PartialOrd, Ord)]
pub enum Origin {
    /// The file of an accepted plan.
    Accepted,
    /// One planted fault.
    OneFault,
    /// Two planted faults, often in one section.
    TwoFaults,
    /// An order fault and a number beyond its limit at one entry.
    TwiceInOneEntry,
    /// A faulty entry in a file that is faulty as a whole.
    FaultyFileAndEntry,
    /// Damage in one to three ways.
    Damaged,
    /// Pairs that keep the offset rule only if sums wrap at 32 bits.
    WrappedSums,
    /// Pairs in order over sections of any length, filled with small and boundary words.
    RandomSections,
    /// Random bytes, often fewer than a header.
    RandomBytes,
    /// Up to [`LARGE_BYTES`] more than a plan needs.
    Large,
    /// One step away from a sample, every such step in turn.
    NextToSample,
}

impl Origin {
    /// Every way in which a file comes about.
    pub const ALL: [Origin; 11] = [
        Origin::Accepted,
        Origin::OneFault,
        Origin::TwoFaults,
        Origin::TwiceInOneEntry,
        Origin::FaultyFileAndEntry,
        Origin::Damaged,
        Origin::WrappedSums,
        Origin::RandomSections,
        Origin::RandomBytes,
        Origin::Large,
        Origin::NextToSample,
    ];
}

/// How far large files go beyond the longest plan.
pub const LARGE_BYTES: usize = 100_000;

/// Of a hundred random files, how many come about in each way.
const SHARES: [(Origin, usize); 10] = [
    (Origin::Accepted, 16),
    (Origin::OneFault, 25),
    (Origin::TwoFaults, 16),
    (Origin::TwiceInOneEntry, 4),
    (Origin::FaultyFileAndEntry, 4),
    (Origin::Damaged, 20),
    (Origin::WrappedSums, 5),
    (Origin::RandomSections, 5),
    (Origin::RandomBytes, 4),
    (Origin::Large, 1),
];

/// A random file and how it came about.
pub fn any(rng: &mut Rng) -> (Origin, Vec<u8>) {
    let mut place = rng.below(SHARES.iter().map(|(_, share)| share).sum());
    for (origin, share) in SHARES {
        if place < share {
            return (origin, file(rng, origin));
        }
        place -= share;
    }
    unreachable!("the place is below the sum")
}

fn file(rng: &mut Rng, origin: Origin) -> Vec<u8> {
    let mut plan = plans::any(rng);
    match origin {
        Origin::OneFault => return one_fault(rng, plan),
        Origin::TwoFaults => two_faults(rng, &mut plan),
        Origin::TwiceInOneEntry => {
            // A plan that has no entry for the fault makes way for another.
            while plant_twice_in_one_entry(rng, &mut plan).is_none() {
                plan = plans::any(rng);
            }
        }
        Origin::FaultyFileAndEntry => {
            let (entry_cause, cause) = (cause_of(rng, OF_ENTRIES), cause_of(rng, OF_THE_FILE));
            plant_in_plan(rng, &mut plan, entry_cause);
            return plant_in_file(rng, &plan, cause);
        }
        Origin::Damaged => return damaged(rng, &encode(&plan)),
        Origin::WrappedSums => return Damage::WrapSums.apply(rng, &encode(&plan)),
        Origin::RandomSections => return random_sections(rng),
        Origin::RandomBytes => {
            let most = rng.pick(&[0, 50, 50, 5_000]);
            return random_bytes(rng, most);
        }
        Origin::Large => return large(rng, &plan),
        Origin::Accepted | Origin::NextToSample => (),
    }
    encode(&plan)
}

/// The refusals of a file as a whole.
const OF_THE_FILE: RangeInclusive<usize> = REFUSED_SHORT..=REFUSED_SIZES;
/// The refusals of what stands in it.
const OF_ENTRIES: RangeInclusive<usize> = REFUSED_HORIZON..=REFUSED_COMMAND;

fn cause_of(rng: &mut Rng, numbers: RangeInclusive<usize>) -> Cause {
    let all = Cause::ALL.into_iter();
    let fitting: Vec<Cause> = all
        .filter(|cause| numbers.contains(&cause.number()))
        .collect();
    rng.pick(&fitting)
}

/// Every cause is as likely as any other; a plan that has no entry for it makes way for another.
fn one_fault(rng: &mut Rng, mut plan: Plan) -> Vec<u8> {
    let cause = rng.pick(&Cause::ALL);
    loop {
        if let Some(planted) = planted(rng, &plan, cause) {
            return planted.file;
        }
        plan = plans::any(rng);
    }
}

fn two_faults(rng: &mut Rng, plan: &mut Plan) {
    let first = cause_of(rng, OF_ENTRIES);
    let second = match rng.once_in(2) {
        true => cause_of(rng, first.number()..=first.number()),
        false => cause_of(rng, OF_ENTRIES),
    };
    plant_in_plan(rng, plan, first);
    plant_in_plan(rng, plan, second);
}

fn random_sections(rng: &mut Rng) -> Vec<u8> {
    let horizon = rng.pick(&[0, 1, 100, 100, 100, LARGEST_HORIZON, LARGEST_HORIZON + 1]);
    let sections = Section::ALL.map(|section| {
        // Often few entries, so that the sections after it are reached too.
        let most = rng.pick(&[1, 2, section.most() + 1]);
        let entries = rng.within(section.least() as i64, most as i64) as usize;
        let words = entries * section.entry_bytes() / WORD_BYTES;
        let mut bytes: Vec<u8> = (0..words)
            .flat_map(|_| small_or_boundary_word(rng))
            .collect();
        if rng.once_in(20) {
            bytes.extend(random_bytes(rng, section.entry_bytes()));
        }
        bytes
    });
    assemble(horizon, &sections)
}

fn small_or_boundary_word(rng: &mut Rng) -> [u8; WORD_BYTES] {
    let word = match rng.once_in(4) {
        true => boundary_word(rng, 0),
        false => rng.below(4) as u32,
    };
    word.to_le_bytes()
}

fn large(rng: &mut Rng, plan: &Plan) -> Vec<u8> {
    let more = random_bytes(rng, LARGE_BYTES);
    let mut sections = section_bytes(plan);
    let section = rng.pick(&Section::ALL);
    let size = section.entry_bytes();
    let grown = &mut sections[section as usize];
    match rng.below(4) {
        0 => return more,
        1 => return [encode(plan), more].concat(),
        2 => grown.extend(&more),
        _ => grown.extend(&more[..more.len() / size * size]),
    }
    assemble(plan.horizon, &sections)
}

/// Every file one step away from a file: each beginning of it, each of its bits turned, each of its
/// words replaced by each bound and its neighbours.
pub fn next_to(file: &[u8]) -> Vec<Vec<u8>> {
    let cut = (0..file.len()).map(|length| file[..length].to_vec());
    let turned = (0..8 * file.len()).map(|bit| {
        let mut next = file.to_vec();
        next[bit / 8] ^= 1 << (bit % 8);
        next
    });
    let bounds = boundary_words();
    let replaced = (0..file.len() / WORD_BYTES).flat_map(|word| {
        bounds.iter().map(move |&bound| {
            let mut next = file.to_vec();
            set_word(&mut next, word * WORD_BYTES, bound);
            next
        })
    });
    cut.chain(turned).chain(replaced).collect()
}

#[cfg(test)]
mod tests {
    use super::*;

    /// A way of making files that is left out of the list would not be insisted on.
    #[test]
    fn every_origin_is_listed() {
        let shared = SHARES.map(|(origin, _)| origin);
        for origin in shared.into_iter().chain([Origin::NextToSample]) {
            assert!(Origin::ALL.contains(&origin), "{origin:?}");
        }
        assert_eq!(Origin::ALL.len(), SHARES.len() + 1);
    }
}
