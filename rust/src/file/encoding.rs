//! Putting a plan file together.

use crate::limits::{HEADER_BYTES, SECTIONS, WORD_BYTES};
use crate::plan::Plan;

/// The file of a plan. A plan that breaks the rules is encoded as well, each field by its lowest
/// 32 bits, so that faulty files can be made from faulty plans.
pub fn encode(plan: &Plan) -> Vec<u8> {
    assemble(plan.horizon, &section_bytes(plan))
}

/// Writes the file of a plan from the buffer's start and answers its length; `None`, and no byte
/// changed, if the buffer is shorter.
pub fn write(plan: &Plan, buffer: &mut [u8]) -> Option<usize> {
    let file = encode(plan);
    buffer.get_mut(..file.len())?.copy_from_slice(&file);
    Some(file.len())
}

/// A file from a horizon and the bytes of its sections, with the pairs that the offset rule asks.
pub fn assemble(horizon: u32, sections: &[Vec<u8>; SECTIONS]) -> Vec<u8> {
    let mut file = Vec::new();
    put(&mut file, i64::from(horizon));
    let mut offset = HEADER_BYTES;
    for section in sections {
        put(&mut file, offset as i64);
        put(&mut file, section.len() as i64);
        offset += section.len();
    }
    for section in sections {
        file.extend_from_slice(section);
    }
    file
}

/// The bytes of the five sections.
pub fn section_bytes(plan: &Plan) -> [Vec<u8>; SECTIONS] {
    [
        entries(&plan.integrators, |entry| [entry.start, entry.quantum]),
        entries(&plan.inputs, |&first| [first]),
        entries(&plan.nodes, |entry| {
            [
                entry.kind as i64,
                entry.a as i64,
                entry.b as i64,
                entry.low,
                entry.high,
            ]
        }),
        entries(&plan.links, |entry| {
            [entry.target as i64, entry.source as i64, entry.coefficient]
        }),
        entries(&plan.commands, |entry| {
            [i64::from(entry.tick), entry.input as i64, entry.value]
        }),
    ]
}

fn entries<T, const WORDS: usize>(list: &[T], words: impl Fn(&T) -> [i64; WORDS]) -> Vec<u8> {
    let mut bytes = Vec::with_capacity(list.len() * WORDS * WORD_BYTES);
    for entry in list {
        for value in words(entry) {
            put(&mut bytes, value);
        }
    }
    bytes
}

/// Little-endian, 32 bits wide; for a negative value these bits are its two's complement.
fn put(bytes: &mut Vec<u8>, value: i64) {
    bytes.extend_from_slice(&(value as u32).to_le_bytes());
}
