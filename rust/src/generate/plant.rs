//! Faults planted in accepted plans, so that the right refusal is known beforehand.

use super::rng::Rng;
use crate::file::encoding::{assemble, section_bytes};
use crate::file::{encode, Cause, Refusal};
use crate::limits::{
    Section, HEADER_BYTES, KIND_COMPARISON, KIND_DIFFERENCE, KIND_LIMIT, KIND_PRODUCT,
    LARGEST_COEFFICIENT, LARGEST_HORIZON, M, SECTIONS, WORD_BYTES,
};
use crate::limits::{
    REFUSED_HORIZON, REFUSED_INPUT, REFUSED_INTEGRATOR, REFUSED_LINK, REFUSED_NODE, REFUSED_SIZES,
};
use crate::plan::Plan;
use crate::words::{set_word, word_at};

/// The largest word, as an index, a kind or an unsigned number.
const WORD_MAX: i64 = u32::MAX as i64;
/// Just beyond ±M and as far beyond as 32 bits allow.
const BEYOND_M: [i64; 4] = [M + 1, -M - 1, i32::MAX as i64, i32::MIN as i64];

/// A file that meets one refusal by construction.
#[derive(Clone, Debug)]
pub struct Planted {
    /// The faulty file.
    pub file: Vec<u8>,
    /// What the reader has to answer.
    pub refusal: Refusal,
}

/// An accepted plan's file with one fault; `None` if the plan has no entry that can carry it.
pub fn planted(rng: &mut Rng, plan: &Plan, cause: Cause) -> Option<Planted> {
    if cause.number() <= REFUSED_SIZES {
        let refusal = Refusal::whole(cause);
        let file = plant_in_file(rng, plan, cause);
        return Some(Planted { file, refusal });
    }
    let mut faulty = plan.clone();
    let entry = plant_in_plan(rng, &mut faulty, cause)?;
    let refusal = Refusal { cause, entry };
    let file = encode(&faulty);
    Some(Planted { file, refusal })
}

/// Plants one of the causes of refusals 4 to 9 and answers its entry.
pub fn plant_in_plan(rng: &mut Rng, plan: &mut Plan, cause: Cause) -> Option<usize> {
    match cause.number() {
        REFUSED_HORIZON => Some(plant_horizon(rng, plan, cause)),
        REFUSED_INTEGRATOR => Some(plant_integrator(rng, plan, cause)),
        REFUSED_INPUT => plant_input(rng, plan),
        REFUSED_NODE => plant_node(rng, plan, cause),
        REFUSED_LINK => plant_link(rng, plan, cause),
        _ => plant_command(rng, plan, cause),
    }
}

/// Plants an order fault, and at the same entry a number beyond its limit, and answers the entry.
pub fn plant_twice_in_one_entry(rng: &mut Rng, plan: &mut Plan) -> Option<usize> {
    let cause = rng.pick(&[
        Cause::LinkRepeats,
        Cause::LinkDescends,
        Cause::CommandRepeats,
        Cause::CommandDescends,
    ]);
    let entry = plant_in_plan(rng, plan, cause)?;
    match cause.number() {
        REFUSED_LINK => plan.links[entry].coefficient = rng.pick(&[0, LARGEST_COEFFICIENT + 1]),
        _ => plan.commands[entry].value = rng.pick(&BEYOND_M),
    }
    Some(entry)
}

fn plant_horizon(rng: &mut Rng, plan: &mut Plan, cause: Cause) -> usize {
    plan.horizon = match cause {
        Cause::HorizonZero => 0,
        _ => rng.pick(&[LARGEST_HORIZON + 1, 1 << 31, u32::MAX]),
    };
    0
}

fn plant_integrator(rng: &mut Rng, plan: &mut Plan, cause: Cause) -> usize {
    let entry = rng.below(plan.integrators.len());
    let integrator = &mut plan.integrators[entry];
    match cause {
        Cause::StartBeyond => integrator.start = rng.pick(&BEYOND_M),
        Cause::QuantumBelow => integrator.quantum = 0,
        _ => integrator.quantum = rng.pick(&[M + 1, 1 << 31, WORD_MAX]),
    }
    entry
}

fn plant_input(rng: &mut Rng, plan: &mut Plan) -> Option<usize> {
    let entry = entry_where(rng, &plan.inputs, |_| true)?;
    plan.inputs[entry] = rng.pick(&BEYOND_M);
    Some(entry)
}

fn plant_node(rng: &mut Rng, plan: &mut Plan, cause: Cause) -> Option<usize> {
    let kinds: &[usize] = match cause {
        Cause::KindAbove | Cause::AOutOfPlace => {
            &[KIND_DIFFERENCE, KIND_PRODUCT, KIND_LIMIT, KIND_COMPARISON]
        }
        Cause::BOutOfPlace => &[KIND_DIFFERENCE, KIND_PRODUCT, KIND_COMPARISON],
        Cause::UnusedLowNotZero | Cause::UnusedHighNotZero => &[KIND_DIFFERENCE, KIND_PRODUCT],
        Cause::LowBeyond | Cause::HighBeyond => &[KIND_LIMIT, KIND_COMPARISON],
        _ => &[KIND_LIMIT],
    };
    let entry = entry_where(rng, &plan.nodes, |node| kinds.contains(&node.kind))?;
    let sources_below = plan.node_source(entry);
    let node = &mut plan.nodes[entry];
    match cause {
        Cause::KindAbove => {
            node.kind = rng.pick(&[
                KIND_COMPARISON + 1,
                KIND_COMPARISON + 2,
                256,
                u32::MAX as usize,
            ]);
        }
        Cause::AOutOfPlace => {
            node.a = rng.pick(&[sources_below, sources_below + 1, u32::MAX as usize])
        }
        Cause::BOutOfPlace => {
            node.b = rng.pick(&[sources_below, sources_below + 1, u32::MAX as usize])
        }
        Cause::UnusedBNotZero => node.b = rng.pick(&[1, sources_below, u32::MAX as usize]),
        Cause::UnusedLowNotZero => node.low = rng.pick(&[1, -1, M]),
        Cause::UnusedHighNotZero => node.high = rng.pick(&[1, -1, M]),
        Cause::LowBeyond => node.low = rng.pick(&BEYOND_M),
        Cause::HighBeyond => node.high = rng.pick(&BEYOND_M),
        _ => {
            node.high = rng.within(-M, M - 1);
            node.low = rng.within(node.high + 1, M);
        }
    }
    Some(entry)
}

fn plant_link(rng: &mut Rng, plan: &mut Plan, cause: Cause) -> Option<usize> {
    let (targets, sources) = (plan.integrators.len(), plan.sources());
    let links = &mut plan.links;
    let ordered = matches!(cause, Cause::LinkRepeats | Cause::LinkDescends);
    let entry = entry_from(rng, links.len(), usize::from(ordered))?;
    match cause {
        Cause::TargetOutOfPlace => links[entry].target = rng.pick(&[targets, u32::MAX as usize]),
        Cause::SourceOutOfPlace => links[entry].source = rng.pick(&[sources, u32::MAX as usize]),
        Cause::CoefficientZero => links[entry].coefficient = 0,
        Cause::CoefficientBeyond => {
            let beyond = [
                LARGEST_COEFFICIENT + 1,
                -LARGEST_COEFFICIENT - 1,
                i32::MIN as i64,
            ];
            links[entry].coefficient = rng.pick(&beyond);
        }
        Cause::LinkRepeats => {
            links[entry].target = links[entry - 1].target;
            links[entry].source = links[entry - 1].source;
        }
        _ => links.swap(entry - 1, entry),
    }
    Some(entry)
}

fn plant_command(rng: &mut Rng, plan: &mut Plan, cause: Cause) -> Option<usize> {
    let (horizon, inputs) = (plan.horizon, plan.inputs.len());
    let commands = &mut plan.commands;
    let ordered = matches!(cause, Cause::CommandRepeats | Cause::CommandDescends);
    let entry = entry_from(rng, commands.len(), usize::from(ordered))?;
    match cause {
        Cause::TickZero => commands[entry].tick = 0,
        Cause::TickAboveHorizon => {
            // The horizon may be beyond its own limit already.
            commands[entry].tick = rng.pick(&[horizon.saturating_add(1), u32::MAX]);
        }
        Cause::InputOutOfPlace => commands[entry].input = rng.pick(&[inputs, u32::MAX as usize]),
        Cause::ValueBeyond => commands[entry].value = rng.pick(&BEYOND_M),
        Cause::CommandRepeats => {
            commands[entry].tick = commands[entry - 1].tick;
            commands[entry].input = commands[entry - 1].input;
        }
        _ => commands.swap(entry - 1, entry),
    }
    Some(entry)
}

fn entry_where<T>(rng: &mut Rng, list: &[T], fits: impl Fn(&T) -> bool) -> Option<usize> {
    let fitting: Vec<usize> = (0..list.len())
        .filter(|&entry| fits(&list[entry]))
        .collect();
    (!fitting.is_empty()).then(|| rng.pick(&fitting))
}

/// An entry number from `first` on, below `count`.
fn entry_from(rng: &mut Rng, count: usize, first: usize) -> Option<usize> {
    (first < count).then(|| first + rng.below(count - first))
}

/// Plants one of the causes of refusals 1 to 3.
pub fn plant_in_file(rng: &mut Rng, plan: &Plan, cause: Cause) -> Vec<u8> {
    let mut file = encode(plan);
    match cause {
        Cause::ShortFile => file.truncate(rng.below(HEADER_BYTES)),
        Cause::FirstOffset => move_word(rng, &mut file, offset_place(0)),
        Cause::NextOffset => {
            let section = rng.below(SECTIONS - 1) + 1;
            move_word(rng, &mut file, offset_place(section));
        }
        Cause::FileEnd => move_end(rng, &mut file),
        _ => return with_wrong_count(rng, plan, cause),
    }
    file
}

/// Where the offset of a section stands in the header; its length is the word after.
pub fn offset_place(section: usize) -> usize {
    WORD_BYTES + section * 2 * WORD_BYTES
}

/// Changes a word to any other value.
fn move_word(rng: &mut Rng, file: &mut [u8], place: usize) {
    let change = match rng.below(3) {
        0 => 4,
        1 => u32::MAX - 3,
        _ => rng.within(1, WORD_MAX) as u32,
    };
    let moved = word_at(file, place).wrapping_add(change);
    set_word(file, place, moved);
}

/// Makes the last section end before or after the file's end.
fn move_end(rng: &mut Rng, file: &mut Vec<u8>) {
    match rng.below(3) {
        0 => file.extend(vec![0; rng.below(30) + 1]),
        1 => file.truncate(file.len() - 1 - rng.below(file.len() - HEADER_BYTES)),
        _ => move_word(rng, file, offset_place(SECTIONS - 1) + WORD_BYTES),
    }
}

fn with_wrong_count(rng: &mut Rng, plan: &Plan, cause: Cause) -> Vec<u8> {
    let mut sections = section_bytes(plan);
    let section = rng.pick(&Section::ALL);
    let bytes = &mut sections[section as usize];
    match cause {
        Cause::PartOfEntry => {
            let part = rng.below(section.entry_bytes() - 1) + 1;
            bytes.extend(vec![0; part]);
        }
        Cause::TooFewEntries => sections[Section::Integrators as usize].clear(),
        _ => {
            let entries = section.most() + 1 + rng.below(3);
            bytes.resize(entries * section.entry_bytes(), 1);
        }
    }
    assemble(plan.horizon, &sections)
}
