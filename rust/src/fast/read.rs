//! Reading a plan file in one pass, with refusals 1 to 9, and the section view.

use super::rules::{self, BELOW_EVERY_KEY};
use crate::limits::{
    Section, COMMAND_BYTES, HEADER_BYTES, INPUT_BYTES, INTEGRATOR_BYTES, LINK_BYTES, NODE_BYTES,
    SECTIONS, WORD_BYTES,
};
use crate::limits::{
    REFUSED_COMMAND, REFUSED_HORIZON, REFUSED_INPUT, REFUSED_INTEGRATOR, REFUSED_LINK,
    REFUSED_NODE, REFUSED_OFFSETS, REFUSED_SHORT, REFUSED_SIZES,
};
use crate::plan::{Command, Integrator, Link, Node};
use crate::raw::RawCounts;

/// Why a file is refused: document 01's number, and the entry.
#[derive(Clone, Copy, Debug, PartialEq, Eq)]
pub struct Refused {
    /// 1 to 9.
    pub number: usize,
    /// The lowest faulty entry, 0 for the numbers 1 to 4.
    pub entry: usize,
}

/// What a header says, with the sections as parts of the file.
#[derive(Clone, Copy, Debug)]
pub struct Parts<'f> {
    pub horizon: u32,
    pub counts: RawCounts,
    sections: [&'f [u8]; SECTIONS],
}

/// What takes the entries of a file, each as soon as it has been seen to keep its rule.
pub trait Entries {
    fn integrator(&mut self, _number: usize, _entry: &Integrator) {}
    fn input(&mut self, _number: usize, _first: i64) {}
    fn node(&mut self, _number: usize, _entry: &Node) {}
    fn link(&mut self, _number: usize, _entry: &Link) {}
    fn command(&mut self, _number: usize, _entry: &Command) {}
}

/// Takes no entry: the file is only tested.
struct Tested;

impl Entries for Tested {}

/// Whether a file is accepted, or why it is refused.
#[inline(never)]
pub fn read(file: &[u8]) -> Result<(), Refused> {
    read_into(file, &mut Tested).map(|_| ())
}

/// The section view: a part of the caller's own file, which is empty at the file's start if the
/// file is refused or the number is above 4.
#[inline(never)]
pub fn section(file: &[u8], number: usize) -> &[u8] {
    if number >= SECTIONS {
        return &file[..0];
    }
    match read_into(file, &mut Tested) {
        Ok(parts) => parts.sections[number],
        Err(_) => &file[..0],
    }
}

/// Reads a file and hands its entries on, up to the first that breaks its rule.
#[inline]
pub fn read_into<'f>(file: &'f [u8], to: &mut impl Entries) -> Result<Parts<'f>, Refused> {
    let parts = split(file)?;
    let [integrators, inputs, nodes, links, commands] = parts.sections;
    read_integrators(integrators, to)?;
    read_inputs(inputs, to)?;
    read_nodes(nodes, parts.counts.n + parts.counts.m, to)?;
    read_links(links, &parts.counts, to)?;
    read_commands(commands, &parts, to)?;
    Ok(parts)
}

/// The parts of a file, or refusals 1 to 4.
#[inline]
fn split(file: &[u8]) -> Result<Parts<'_>, Refused> {
    let Some((header, _)) = file.split_first_chunk::<HEADER_BYTES>() else {
        return Err(refused_whole(REFUSED_SHORT));
    };
    let [horizon, pairs @ ..] = words_of::<{ 1 + 2 * SECTIONS }>(header);
    let mut ends = [HEADER_BYTES as u64; SECTIONS + 1];
    for section in 0..SECTIONS {
        let (offset, length) = (pairs[2 * section], pairs[2 * section + 1]);
        if u64::from(offset) != ends[section] {
            return Err(refused_whole(REFUSED_OFFSETS));
        }
        ends[section + 1] = ends[section] + u64::from(length);
    }
    if ends[SECTIONS] != file.len() as u64 {
        return Err(refused_whole(REFUSED_OFFSETS));
    }
    let sections = std::array::from_fn(|number| {
        // No end is beyond the file's by now.
        &file[ends[number] as usize..ends[number + 1] as usize]
    });
    let mut counts = [0; SECTIONS];
    for (number, section) in Section::ALL.into_iter().enumerate() {
        let length = sections[number].len();
        counts[number] = length / section.entry_bytes();
        let is_within = (section.least()..=section.most()).contains(&counts[number]);
        if length % section.entry_bytes() != 0 || !is_within {
            return Err(refused_whole(REFUSED_SIZES));
        }
    }
    if !rules::horizon(horizon) {
        return Err(refused_whole(REFUSED_HORIZON));
    }
    Ok(Parts {
        horizon,
        counts: RawCounts::of_sections(counts),
        sections,
    })
}

#[inline]
fn read_integrators(part: &[u8], to: &mut impl Entries) -> Result<(), Refused> {
    for (number, bytes) in part.chunks_exact(INTEGRATOR_BYTES).enumerate() {
        let [start, quantum] = words_of(bytes);
        let entry = Integrator {
            start: signed(start),
            quantum: i64::from(quantum),
        };
        if !rules::integrator(&entry) {
            return Err(refused(REFUSED_INTEGRATOR, number));
        }
        to.integrator(number, &entry);
    }
    Ok(())
}

#[inline]
fn read_inputs(part: &[u8], to: &mut impl Entries) -> Result<(), Refused> {
    for (number, bytes) in part.chunks_exact(INPUT_BYTES).enumerate() {
        let [first] = words_of(bytes);
        if !rules::input(signed(first)) {
            return Err(refused(REFUSED_INPUT, number));
        }
        to.input(number, signed(first));
    }
    Ok(())
}

#[inline]
fn read_nodes(part: &[u8], first_source: usize, to: &mut impl Entries) -> Result<(), Refused> {
    for (number, bytes) in part.chunks_exact(NODE_BYTES).enumerate() {
        let [kind, a, b, low, high] = words_of(bytes);
        let entry = Node {
            kind: kind as usize,
            a: a as usize,
            b: b as usize,
            low: signed(low),
            high: signed(high),
        };
        if !rules::node(&entry, first_source + number) {
            return Err(refused(REFUSED_NODE, number));
        }
        to.node(number, &entry);
    }
    Ok(())
}

#[inline]
fn read_links(part: &[u8], counts: &RawCounts, to: &mut impl Entries) -> Result<(), Refused> {
    let mut last = BELOW_EVERY_KEY;
    for (number, bytes) in part.chunks_exact(LINK_BYTES).enumerate() {
        let [target, source, coefficient] = words_of(bytes);
        let entry = Link {
            target: target as usize,
            source: source as usize,
            coefficient: signed(coefficient),
        };
        let key = rules::link_key(&entry);
        if !rules::link(&entry, counts) || key <= last {
            return Err(refused(REFUSED_LINK, number));
        }
        last = key;
        to.link(number, &entry);
    }
    Ok(())
}

#[inline]
fn read_commands(part: &[u8], parts: &Parts, to: &mut impl Entries) -> Result<(), Refused> {
    let mut last = BELOW_EVERY_KEY;
    for (number, bytes) in part.chunks_exact(COMMAND_BYTES).enumerate() {
        let [tick, input, value] = words_of(bytes);
        let entry = Command {
            tick,
            input: input as usize,
            value: signed(value),
        };
        let key = rules::command_key(&entry);
        if !rules::command(&entry, &parts.counts, parts.horizon) || key <= last {
            return Err(refused(REFUSED_COMMAND, number));
        }
        last = key;
        to.command(number, &entry);
    }
    Ok(())
}

/// The words of an entry, which has to be as long.
#[inline]
fn words_of<const WORDS: usize>(entry: &[u8]) -> [u32; WORDS] {
    let mut words = [0; WORDS];
    for (word, bytes) in words.iter_mut().zip(entry.chunks_exact(WORD_BYTES)) {
        *word = u32::from_le_bytes([bytes[0], bytes[1], bytes[2], bytes[3]]);
    }
    words
}

/// Two's complement.
#[inline]
fn signed(word: u32) -> i64 {
    i64::from(word as i32)
}

fn refused(number: usize, entry: usize) -> Refused {
    Refused { number, entry }
}

fn refused_whole(number: usize) -> Refused {
    refused(number, 0)
}
