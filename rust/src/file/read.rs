//! Reading a plan file and viewing its sections.

use super::cause::{Cause, Refusal};
use super::reader_rules::ReaderRules;
use super::rules;
use crate::limits::{Section, HEADER_BYTES, SECTIONS, WORD_BYTES};
use crate::plan::{Command, Integrator, Link, Node, Plan};
use crate::words::{signed_at, word_at};

/// The five sections of a file, each a part of the file itself.
pub type Parts<'f> = [&'f [u8]; SECTIONS];

/// Offset and length of the five sections.
type Pairs = [(u64, u64); SECTIONS];

/// The plan of a file, or the first of the refusals 1 to 9 that it meets.
pub fn read(file: &[u8]) -> Result<Plan, Refusal> {
    read_by(&ReaderRules::DOCUMENT, file)
}

/// The same by a table of rules.
pub fn read_by(rules: &ReaderRules, file: &[u8]) -> Result<Plan, Refusal> {
    let pairs = pairs(file)?;
    check_offsets(rules, &pairs, file.len() as u64)?;
    if !rules.counts_first {
        rules::horizon(word_at(file, 0))?;
    }
    check_counts(rules, &pairs)?;
    let plan = decode(file, &parts(file, &pairs));
    rules::check_by(rules, &plan)?;
    Ok(plan)
}

/// The section view: a part of the caller's own file, "or an empty part if the file would be
/// refused or the number is above 4", which is taken from the file's start.
pub fn section(file: &[u8], number: usize) -> &[u8] {
    section_by(&ReaderRules::DOCUMENT, file, number)
}

/// The same by a table of rules.
pub fn section_by<'f>(rules: &ReaderRules, file: &'f [u8], number: usize) -> &'f [u8] {
    match read_by(rules, file).and_then(|_| pairs(file)) {
        Ok(pairs) if number < pairs.len() => parts(file, &pairs)[number],
        _ => &file[..0],
    }
}

/// The sections of a file that meets neither refusal 1 nor 2.
pub fn split(file: &[u8]) -> Result<Parts<'_>, Refusal> {
    let pairs = pairs(file)?;
    check_offsets(&ReaderRules::DOCUMENT, &pairs, file.len() as u64)?;
    Ok(parts(file, &pairs))
}

/// The sections by their lengths: "The first offset is 44, each next offset is the previous offset
/// plus length". An empty one has its place too. All ends are at most the file's length by now, so
/// they fit a usize.
fn parts<'f>(file: &'f [u8], pairs: &Pairs) -> Parts<'f> {
    let mut offset = HEADER_BYTES;
    pairs.map(|(_, length)| {
        let part = &file[offset..][..length as usize];
        offset += part.len();
        part
    })
}

/// Where in a file a part of it starts; of what is no part of it, some wild number.
pub fn place_in(file: &[u8], part: &[u8]) -> usize {
    (part.as_ptr() as usize).wrapping_sub(file.as_ptr() as usize)
}

/// The pairs of a header, or refusal 1.
fn pairs(file: &[u8]) -> Result<Pairs, Refusal> {
    if file.len() < HEADER_BYTES {
        return Err(Refusal::whole(Cause::ShortFile));
    }
    Ok(std::array::from_fn(|number| {
        let at = WORD_BYTES + number * 2 * WORD_BYTES;
        (
            u64::from(word_at(file, at)),
            u64::from(word_at(file, at + WORD_BYTES)),
        )
    }))
}

/// Refusal 2.
fn check_offsets(rules: &ReaderRules, pairs: &Pairs, file_length: u64) -> Result<(), Refusal> {
    let mut expected = HEADER_BYTES as u64;
    for (number, &(offset, length)) in pairs.iter().enumerate() {
        if offset != expected {
            let first = number == 0;
            return Err(Refusal::whole(if first {
                Cause::FirstOffset
            } else {
                Cause::NextOffset
            }));
        }
        expected = (rules.end)(offset, length);
    }
    if !(rules.ends_file)(expected, file_length) {
        return Err(Refusal::whole(Cause::FileEnd));
    }
    Ok(())
}

/// Refusal 3, for all sections before the horizon is looked at.
fn check_counts(rules: &ReaderRules, pairs: &Pairs) -> Result<(), Refusal> {
    for (section, &(_, length)) in Section::ALL.into_iter().zip(pairs) {
        let size = section.entry_bytes() as u64;
        let count = length / size;
        if length % size != 0 {
            return Err(Refusal::whole(Cause::PartOfEntry));
        }
        if count < section.least() as u64 {
            return Err(Refusal::whole(Cause::TooFewEntries));
        }
        if count > (rules.most)(section) as u64 {
            return Err(Refusal::whole(Cause::TooManyEntries));
        }
    }
    Ok(())
}

/// Words to fields, with no test of their values.
fn decode(file: &[u8], parts: &Parts) -> Plan {
    let entries = |section: Section| parts[section as usize].chunks_exact(section.entry_bytes());
    Plan {
        horizon: word_at(file, 0),
        integrators: entries(Section::Integrators).map(integrator).collect(),
        inputs: entries(Section::Inputs)
            .map(|entry| signed(entry, 0))
            .collect(),
        nodes: entries(Section::Nodes).map(node).collect(),
        links: entries(Section::Links).map(link).collect(),
        commands: entries(Section::Commands).map(command).collect(),
    }
}

fn integrator(entry: &[u8]) -> Integrator {
    Integrator {
        start: signed(entry, 0),
        quantum: i64::from(unsigned(entry, 1)),
    }
}

fn node(entry: &[u8]) -> Node {
    Node {
        kind: index(entry, 0),
        a: index(entry, 1),
        b: index(entry, 2),
        low: signed(entry, 3),
        high: signed(entry, 4),
    }
}

fn link(entry: &[u8]) -> Link {
    Link {
        target: index(entry, 0),
        source: index(entry, 1),
        coefficient: signed(entry, 2),
    }
}

fn command(entry: &[u8]) -> Command {
    Command {
        tick: unsigned(entry, 0),
        input: index(entry, 1),
        value: signed(entry, 2),
    }
}

/// A word of an entry, counted from 0.
fn unsigned(entry: &[u8], number: usize) -> u32 {
    word_at(entry, number * WORD_BYTES)
}

fn signed(entry: &[u8], number: usize) -> i64 {
    i64::from(signed_at(entry, number * WORD_BYTES))
}

fn index(entry: &[u8], number: usize) -> usize {
    unsigned(entry, number) as usize
}
