//! Damage to plan files. What a damaged file is refused by, if at all, is not known beforehand;
//! such files are for comparing two readers and for the promises that hold for every file.

use super::plant::offset_place;
use super::rng::Rng;
use crate::file::encoding::assemble;
use crate::file::read::split;
use crate::limits::{
    Section, COMMANDS, GRAINS_PER_ML, HEADER_BYTES, INPUTS, INTEGRATORS, LARGEST_COEFFICIENT,
    LARGEST_HORIZON, LINKS, M, NODES, SECTIONS, WORD_BYTES,
};
use crate::words::{set_word, word_at};

/// A way of damaging a file.
#[derive(Clone, Copy, Debug, PartialEq, Eq)]
pub enum Damage {
    /// One to three bits turned.
    FlipBits,
    /// Bytes cut off at the end.
    Cut,
    /// Bytes added at the end.
    Lengthen,
    /// A word of the file replaced by a number at or next to some limit.
    BoundaryWord,
    /// The same for a word after the header.
    BoundaryField,
    /// A word after the header that is a little higher or lower.
    NudgeField,
    /// Two entries of a section exchanged.
    SwapEntries,
    /// An entry doubled, the pairs set right.
    DuplicateEntry,
    /// An entry taken out, the pairs set right.
    DropEntry,
    /// An offset changed.
    MoveOffset,
    /// A length changed.
    MoveLength,
    /// The border of two sections moved, which keeps the offset rule.
    MoveBorder,
    /// Two lengths and the offsets between them changed, so that the offset rule is kept if sums
    /// of 32 bits may wrap.
    WrapSums,
    /// A section with a part of an entry more, the pairs set right.
    OddLength,
    /// A section with one entry too many, the pairs set right.
    CountAboveLimit,
    /// A section emptied, the pairs set right.
    EmptySection,
    /// A horizon outside its limits, or a low one below the commands' ticks.
    Horizon,
    /// Random bytes.
    RandomBytes,
}

impl Damage {
    /// Every way.
    pub const ALL: [Damage; 18] = [
        Damage::FlipBits,
        Damage::Cut,
        Damage::Lengthen,
        Damage::BoundaryWord,
        Damage::BoundaryField,
        Damage::NudgeField,
        Damage::SwapEntries,
        Damage::DuplicateEntry,
        Damage::DropEntry,
        Damage::MoveOffset,
        Damage::MoveLength,
        Damage::MoveBorder,
        Damage::WrapSums,
        Damage::OddLength,
        Damage::CountAboveLimit,
        Damage::EmptySection,
        Damage::Horizon,
        Damage::RandomBytes,
    ];

    /// The damaged file. A file may be damaged again; where its header no longer leads to
    /// sections, ways that need them turn bits instead.
    pub fn apply(self, rng: &mut Rng, file: &[u8]) -> Vec<u8> {
        match self {
            Damage::FlipBits => flip_bits(rng, file),
            Damage::Cut => file[..rng.below(file.len() + 1)].to_vec(),
            Damage::Lengthen => lengthen(rng, file),
            Damage::BoundaryWord => replace_word(rng, file, 0, boundary_word),
            Damage::BoundaryField => replace_word(rng, file, HEADER_BYTES, boundary_word),
            Damage::NudgeField => replace_word(rng, file, HEADER_BYTES, nudged_word),
            Damage::MoveOffset => replace_pair_word(rng, file, 0),
            Damage::MoveLength => replace_pair_word(rng, file, WORD_BYTES),
            Damage::MoveBorder => move_border(rng, file),
            Damage::WrapSums => wrap_sums(rng, file),
            Damage::Horizon => change_horizon(rng, file),
            Damage::RandomBytes => random_bytes(rng, file.len()),
            _ => self.rebuild(rng, file),
        }
    }

    /// Changes one section's bytes and puts the file together anew.
    fn rebuild(self, rng: &mut Rng, file: &[u8]) -> Vec<u8> {
        let Ok(parts) = split(file) else {
            return flip_bits(rng, file);
        };
        let mut sections = parts.map(<[u8]>::to_vec);
        let section = rng.pick(&Section::ALL);
        let bytes = &mut sections[section as usize];
        let size = section.entry_bytes();
        match self {
            Damage::SwapEntries => swap_entries(rng, bytes, size),
            Damage::DuplicateEntry => duplicate_entry(rng, bytes, size),
            Damage::DropEntry => drop_entry(rng, bytes, size),
            Damage::OddLength => bytes.extend(random_bytes(rng, size - 1)),
            Damage::CountAboveLimit => bytes.resize((section.most() + 1) * size, 0),
            _ => bytes.clear(),
        }
        assemble(word_at(file, 0), &sections)
    }
}

/// Ways that leave the header as it is or set it right, so that refusals 5 to 9 are met too.
const WITHIN_SECTIONS: [Damage; 6] = [
    Damage::BoundaryField,
    Damage::BoundaryField,
    Damage::NudgeField,
    Damage::SwapEntries,
    Damage::DuplicateEntry,
    Damage::DropEntry,
];

/// A file damaged in one to three ways, half of the time within its sections only.
pub fn damaged(rng: &mut Rng, file: &[u8]) -> Vec<u8> {
    let ways: &[Damage] = match rng.once_in(2) {
        true => &WITHIN_SECTIONS,
        false => &Damage::ALL,
    };
    let mut result = file.to_vec();
    for _ in 0..rng.below(3) + 1 {
        result = rng.pick(ways).apply(rng, &result);
    }
    result
}

/// Numbers that document 01 has for limits, and the ends of a word.
const BOUNDS: [i64; 15] = [
    0,
    2,
    INPUTS as i64,
    NODES as i64,
    INTEGRATORS as i64,
    HEADER_BYTES as i64,
    COMMANDS as i64,
    LINKS as i64,
    GRAINS_PER_ML,
    LARGEST_COEFFICIENT,
    M,
    M,
    LARGEST_HORIZON as i64,
    1 << 31,
    1 << 32,
];

/// Every bound and its neighbours, with either sign.
pub(super) fn boundary_words() -> Vec<u32> {
    let neighbours = |bound: i64| [bound - 1, bound, bound + 1].map(|number| [number, -number]);
    let mut words: Vec<u32> = BOUNDS
        .into_iter()
        .flat_map(neighbours)
        .flatten()
        .map(|word| word as u32)
        .collect();
    words.sort();
    words.dedup();
    words
}

/// A bound or a neighbour of one, with either sign.
pub(super) fn boundary_word(rng: &mut Rng, _former: u32) -> u32 {
    let number = rng.pick(&BOUNDS) + rng.within(-1, 1);
    (number * rng.pick(&[1, -1])) as u32
}

fn nudged_word(rng: &mut Rng, former: u32) -> u32 {
    former.wrapping_add(rng.pick(&[1, u32::MAX, 4, 8, 12, 1 << 31]))
}

fn flip_bits(rng: &mut Rng, file: &[u8]) -> Vec<u8> {
    let mut damaged = file.to_vec();
    for _ in 0..rng.below(3) + 1 {
        if !damaged.is_empty() {
            let place = rng.below(damaged.len());
            damaged[place] ^= 1 << rng.below(8);
        }
    }
    damaged
}

fn lengthen(rng: &mut Rng, file: &[u8]) -> Vec<u8> {
    let more = rng.below(40) + 1;
    [file, &random_bytes(rng, more)].concat()
}

/// Random bytes, at most so many.
pub(super) fn random_bytes(rng: &mut Rng, most: usize) -> Vec<u8> {
    let length = rng.below(most + 1);
    (0..length).map(|_| rng.bits() as u8).collect()
}

/// Replaces any aligned word from a place on.
fn replace_word(
    rng: &mut Rng,
    file: &[u8],
    from: usize,
    word: fn(&mut Rng, u32) -> u32,
) -> Vec<u8> {
    let mut damaged = file.to_vec();
    let words = file.len().saturating_sub(from) / WORD_BYTES;
    if words > 0 {
        let place = from + rng.below(words) * WORD_BYTES;
        let replaced = word(rng, word_at(file, place));
        set_word(&mut damaged, place, replaced);
    }
    damaged
}

/// Replaces the offset (`part` 0) or the length (`part` 4, a word behind it) of a section.
fn replace_pair_word(rng: &mut Rng, file: &[u8], part: usize) -> Vec<u8> {
    let mut damaged = file.to_vec();
    let place = offset_place(rng.below(SECTIONS)) + part;
    if place + WORD_BYTES <= file.len() {
        let former = word_at(file, place);
        let change = rng.pick(&[nudged_word, boundary_word]);
        let moved = change(rng, former);
        set_word(&mut damaged, place, moved);
    }
    damaged
}

/// Takes bytes from one section's end to the next section's front, or the other way round.
fn move_border(rng: &mut Rng, file: &[u8]) -> Vec<u8> {
    let Ok(parts) = split(file) else {
        return flip_bits(rng, file);
    };
    let first = rng.below(SECTIONS - 1);
    let joined = [parts[first], parts[first + 1]].concat();
    let border = rng.below(joined.len() / WORD_BYTES + 1) * WORD_BYTES;
    let mut sections = parts.map(<[u8]>::to_vec);
    sections[first] = joined[..border].to_vec();
    sections[first + 1] = joined[border..].to_vec();
    assemble(word_at(file, 0), &sections)
}

/// Adds a number to one length and to the offsets up to a later section, and takes it from that
/// section's length, all in 32 bits.
fn wrap_sums(rng: &mut Rng, file: &[u8]) -> Vec<u8> {
    let mut damaged = file.to_vec();
    if file.len() < HEADER_BYTES {
        return damaged;
    }
    let step = rng.pick(&[4_u32, 8, 12, 20, 1 << 24, 1 << 31]);
    let any = rng.bits() as u32;
    let change = rng.pick(&[step, step.wrapping_neg(), any]);
    let first = rng.below(SECTIONS - 1);
    let last = first + 1 + rng.below(SECTIONS - 1 - first);
    let mut add = |place, change| {
        let word = word_at(&damaged, place).wrapping_add(change);
        set_word(&mut damaged, place, word);
    };
    add(offset_place(first) + WORD_BYTES, change);
    (first + 1..=last).for_each(|section| add(offset_place(section), change));
    add(offset_place(last) + WORD_BYTES, change.wrapping_neg());
    damaged
}

fn change_horizon(rng: &mut Rng, file: &[u8]) -> Vec<u8> {
    let mut damaged = file.to_vec();
    if file.len() >= WORD_BYTES {
        let horizon = rng.pick(&[
            0,
            1,
            5,
            LARGEST_HORIZON,
            LARGEST_HORIZON + 1,
            1 << 31,
            u32::MAX,
        ]);
        set_word(&mut damaged, 0, horizon);
    }
    damaged
}

fn swap_entries(rng: &mut Rng, bytes: &mut [u8], size: usize) {
    let count = bytes.len() / size;
    if count >= 2 {
        let low = rng.below(count - 1);
        let high = low + 1 + rng.below(count - 1 - low);
        let (front, back) = bytes.split_at_mut(high * size);
        front[low * size..(low + 1) * size].swap_with_slice(&mut back[..size]);
    }
}

fn duplicate_entry(rng: &mut Rng, bytes: &mut Vec<u8>, size: usize) {
    let count = bytes.len() / size;
    if count >= 1 {
        let entry = rng.below(count);
        let copy = bytes[entry * size..(entry + 1) * size].to_vec();
        bytes.splice(entry * size..entry * size, copy);
    }
}

fn drop_entry(rng: &mut Rng, bytes: &mut Vec<u8>, size: usize) {
    let count = bytes.len() / size;
    if count >= 1 {
        let entry = rng.below(count);
        bytes.drain(entry * size..(entry + 1) * size);
    }
}
