//! The plan writer: from the columns of a plan straight into the buffer.

use crate::calls::Written;
use crate::limits::{
    Section, ACCEPTED, COMMAND_BYTES, HEADER_BYTES, INPUT_BYTES, INTEGRATOR_BYTES, LINK_BYTES,
    NODE_BYTES, REFUSED_WRITE_BUFFER, SECTIONS, WORD_BYTES,
};
use crate::raw::{RawPlan, RawState};

/// The file of a sound state's plan, with decline 13.
#[inline(never)]
pub fn write(state: RawState, buffer: &mut [u8]) -> Written {
    let counts = state.plan.counts.by_section();
    let lengths: [usize; SECTIONS] =
        std::array::from_fn(|number| counts[number] * Section::ALL[number].entry_bytes());
    let length = HEADER_BYTES + lengths.iter().sum::<usize>();
    let Some(file) = buffer.get_mut(..length) else {
        return Written {
            number: REFUSED_WRITE_BUFFER,
            length: 0,
            state,
        };
    };
    put_header(file, state.plan.horizon, lengths);
    put_sections(&state.plan, &mut file[HEADER_BYTES..], lengths);
    Written {
        number: ACCEPTED,
        length,
        state,
    }
}

fn put_header(file: &mut [u8], horizon: u32, lengths: [usize; SECTIONS]) {
    let mut words = [horizon; 1 + 2 * SECTIONS];
    let mut offset = HEADER_BYTES;
    for (section, length) in lengths.into_iter().enumerate() {
        words[1 + 2 * section] = offset as u32;
        words[2 + 2 * section] = length as u32;
        offset += length;
    }
    put(file, words);
}

fn put_sections(plan: &RawPlan, bytes: &mut [u8], lengths: [usize; SECTIONS]) {
    let mut rest = bytes;
    let [integrators, inputs, nodes, links, commands] = lengths.map(|length| {
        let (part, behind) = std::mem::take(&mut rest).split_at_mut(length);
        rest = behind;
        part
    });
    for (i, entry) in integrators.chunks_exact_mut(INTEGRATOR_BYTES).enumerate() {
        let of = &plan.integrators;
        put(entry, [of.starts[i] as u32, of.quanta[i] as u32]);
    }
    for (i, entry) in inputs.chunks_exact_mut(INPUT_BYTES).enumerate() {
        put(entry, [plan.inputs.firsts[i] as u32]);
    }
    for (i, entry) in nodes.chunks_exact_mut(NODE_BYTES).enumerate() {
        let of = &plan.nodes;
        let [kind, a, b] = [of.kinds[i], of.a[i], of.b[i]].map(|word| word as u32);
        put(entry, [kind, a, b, of.lows[i] as u32, of.highs[i] as u32]);
    }
    for (i, entry) in links.chunks_exact_mut(LINK_BYTES).enumerate() {
        let of = &plan.links;
        let [target, source] = [of.targets[i], of.sources[i]].map(|word| word as u32);
        put(entry, [target, source, of.coefficients[i] as u32]);
    }
    for (i, entry) in commands.chunks_exact_mut(COMMAND_BYTES).enumerate() {
        let of = &plan.commands;
        put(
            entry,
            [of.ticks[i], of.inputs[i] as u32, of.values[i] as u32],
        );
    }
}

/// Words from the start of some bytes; of a negative number these are its two's complement.
#[inline]
fn put<const WORDS: usize>(bytes: &mut [u8], words: [u32; WORDS]) {
    for (place, word) in bytes.chunks_exact_mut(WORD_BYTES).zip(words) {
        place.copy_from_slice(&word.to_le_bytes());
    }
}
