//! One file: every call of a reader compared with the second simulator's.

use super::counts::{count_rewritten, count_section};
use super::{Reader, SecondReader};
use crate::Answer;
use cup_check::file::read::place_in;
use cup_check::file::Refusal;
use cup_check::generate::Rng;
use cup_check::limits::{ACCEPTED, SECTIONS};
use cup_check::met::Met;
use cup_check::plan::Plan;

/// Bytes before and behind a buffer that have to keep their value too.
const MARGIN: usize = 16;

/// What was read, by the second simulator.
type Read = Result<Plan, Refusal>;

/// `Err` describes the first difference.
pub fn compare(
    reader: &dyn Reader,
    second: &SecondReader,
    expected: &Read,
    file: &[u8],
    rng: &mut Rng,
    met: &mut Met,
) -> Result<(), String> {
    // Other bytes around it show a call that looks beyond the file, or counts on its place.
    let before = rng.below(MARGIN);
    let surrounded = [&random_bytes(rng, before), file, &random_bytes(rng, MARGIN)].concat();
    let file = &surrounded[before..before + file.len()];
    compare_answers(reader, expected, file)?;
    compare_sections(reader, second, file, rng, met)?;
    compare_rewriting(reader, second, expected, file, rng, met)
}

fn compare_answers(reader: &dyn Reader, expected: &Read, file: &[u8]) -> Result<(), String> {
    let answer = reader.read(file);
    let expected = match expected {
        Ok(_) => Answer {
            number: ACCEPTED,
            entry: 0,
        },
        Err(refusal) => Answer {
            number: refusal.number(),
            entry: refusal.entry,
        },
    };
    if answer != expected {
        return Err(format!("read: {answer:?}, where {expected:?} is expected"));
    }
    Ok(())
}

/// Every section, an empty one too, and numbers above 4 that end in those of sections at some width.
fn compare_sections(
    reader: &dyn Reader,
    second: &SecondReader,
    file: &[u8],
    rng: &mut Rng,
    met: &mut Met,
) -> Result<(), String> {
    let low = rng.below(SECTIONS);
    let wild = [
        usize::MAX,
        1 << 32,
        (1 << rng.pick(&[8, 16, 32, 63])) + low,
        rng.bits() as usize,
    ];
    for number in (0..=SECTIONS + 1).chain(wild) {
        let part = reader.section(file, number);
        let expected = second.section(file, number);
        let of = |part: &[u8]| (place_in(file, part), part.len());
        if of(part) != of(expected) || part != expected {
            return Err(format!(
                "section {number} at (offset, length) {:?}, where {:?} is expected",
                of(part),
                of(expected)
            ));
        }
        match of(expected) {
            // The file is refused, or there is no such section.
            (0, _) => (),
            (_, length) => count_section(met, number, length),
        }
    }
    Ok(())
}

/// Buffers of the file's length, longer, one byte short, of any shorter length and empty.
fn compare_rewriting(
    reader: &dyn Reader,
    second: &SecondReader,
    expected: &Read,
    file: &[u8],
    rng: &mut Rng,
    met: &mut Met,
) -> Result<(), String> {
    let longer = file.len() + 1 + rng.below(60);
    let shorter = rng.below(file.len() + 1);
    let lengths = [file.len(), longer, file.len().saturating_sub(1), shorter, 0];
    for length in lengths {
        // The bytes around the buffer are compared as well.
        let mut written = random_bytes(rng, length + 2 * MARGIN);
        let mut right = written.clone();
        let buffer = MARGIN..MARGIN + length;
        let answer = reader.rewrite(file, &mut written[buffer.clone()]);
        let expected = second.rewrite(expected, &mut right[buffer]);
        if answer != expected {
            return Err(format!(
                "rewrite: {answer:?} into {length} bytes, where {expected:?} is expected"
            ));
        }
        if let Some(place) = (0..right.len()).find(|&place| written[place] != right[place]) {
            let place = place as i64 - MARGIN as i64;
            return Err(format!(
                "rewrite: byte {place} of {length} after {answer:?} is wrong"
            ));
        }
        count_rewritten(met, answer.number);
    }
    Ok(())
}

/// Random bytes, eight of them at a time.
pub fn random_bytes(rng: &mut Rng, length: usize) -> Vec<u8> {
    let words = (0..length.div_ceil(8)).flat_map(|_| rng.bits().to_le_bytes());
    words.take(length).collect()
}
