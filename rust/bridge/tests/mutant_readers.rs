//! The campaign over files can fail: it finds every mutant of the second simulator's reader, and every
//! mutant of the calls.

use cup_bridge::campaign::{Campaign, ProvedCalls, Reader};
use cup_bridge::{Answer, Rewritten};
use cup_check::file;
use cup_check::file::read::{place_in, split};
use cup_check::limits::{
    Section, ACCEPTED, LINK_BYTES, REFUSED_COMMAND, REFUSED_SIZES, REFUSED_WRITE_BUFFER, SECTIONS,
};

/// Enough for all files next to samples and some thousand random ones.
const FILES: u64 = 45_000;

fn differences(reader: &dyn Reader, mutant: file::Mutant) -> Vec<String> {
    let campaign = Campaign {
        files: FILES,
        seed: 1,
        mutant,
    };
    campaign.run(reader).differences
}

/// What the first difference is, without the bytes of its file.
fn first_difference(reader: &dyn Reader, mutant: file::Mutant) -> Option<String> {
    let first = differences(reader, mutant).into_iter().next()?;
    let (file, rest) = first.split_once(", ").expect("a file and its bytes");
    let (_, difference) = rest.split_once("): ").expect("what differs");
    Some(format!("{file}): {difference}"))
}

#[test]
fn without_a_mutant_the_same_files_agree() {
    let none: [String; 0] = [];
    assert_eq!(differences(&ProvedCalls, file::Mutant::None), none);
}

#[test]
fn every_mutant_of_the_second_simulators_reader_is_found() {
    for mutant in file::Mutant::ALL {
        let found = first_difference(&ProvedCalls, mutant);
        println!("{mutant:?}: {found:?}");
        assert!(found.is_some(), "{mutant:?} was not found");
    }
}

#[test]
fn every_mutant_of_the_second_simulators_reader_has_a_name() {
    for mutant in file::Mutant::ALL.into_iter().chain([file::Mutant::None]) {
        assert_eq!(file::Mutant::named(&format!("{mutant:?}")), Some(mutant));
    }
    assert_eq!(file::Mutant::named("none"), None);
}

/// Mutants of the proved calls.
#[derive(Clone, Copy, Debug)]
enum Mutant {
    EntryOneHigher,
    EntryOfWholeFile,
    SectionShifted,
    SectionOneEntryLate,
    EmptySectionAtTheStart,
    EmptySectionAtTheEnd,
    SectionOfRefused,
    SectionAboveFour,
    SectionNumberIn32Bits,
    LastByteUnwritten,
    ByteBehindTouched,
    ShortBufferTouched,
    OneByteShortAccepted,
    ShortBeforeRefused,
    LengthOfShort,
}

const MUTANTS: [Mutant; 15] = [
    Mutant::EntryOneHigher,
    Mutant::EntryOfWholeFile,
    Mutant::SectionShifted,
    Mutant::SectionOneEntryLate,
    Mutant::EmptySectionAtTheStart,
    Mutant::EmptySectionAtTheEnd,
    Mutant::SectionOfRefused,
    Mutant::SectionAboveFour,
    Mutant::SectionNumberIn32Bits,
    Mutant::LastByteUnwritten,
    Mutant::ByteBehindTouched,
    Mutant::ShortBufferTouched,
    Mutant::OneByteShortAccepted,
    Mutant::ShortBeforeRefused,
    Mutant::LengthOfShort,
];

impl Reader for Mutant {
    fn read(&self, file: &[u8]) -> Answer {
        let mut answer = ProvedCalls.read(file);
        match self {
            Mutant::EntryOneHigher if answer.number == REFUSED_COMMAND => answer.entry += 1,
            Mutant::EntryOfWholeFile if answer.number == REFUSED_SIZES => answer.entry = 1,
            _ => (),
        }
        answer
    }

    fn section<'f>(&self, file: &'f [u8], number: usize) -> &'f [u8] {
        let part = ProvedCalls.section(file, number);
        let at = place_in(file, part);
        match self {
            Mutant::SectionShifted if !part.is_empty() => &file[at - 1..][..part.len()],
            Mutant::SectionOneEntryLate if number == Section::Links as usize => {
                &part[part.len().min(LINK_BYTES)..]
            }
            Mutant::EmptySectionAtTheStart if part.is_empty() => &file[..0],
            Mutant::EmptySectionAtTheEnd if part.is_empty() => &file[file.len()..],
            Mutant::SectionOfRefused if number < SECTIONS => {
                split(file).map_or(part, |all| all[number])
            }
            Mutant::SectionAboveFour => ProvedCalls.section(file, number.min(SECTIONS - 1)),
            Mutant::SectionNumberIn32Bits => ProvedCalls.section(file, number as u32 as usize),
            _ => part,
        }
    }

    fn rewrite(&self, file: &[u8], buffer: &mut [u8]) -> Rewritten {
        let before = buffer.to_vec();
        let mut answer = ProvedCalls.rewrite(file, buffer);
        let (number, length) = (answer.number, answer.length);
        match self {
            Mutant::LastByteUnwritten if number == ACCEPTED => {
                buffer[length - 1] = before[length - 1]
            }
            Mutant::ByteBehindTouched if number == ACCEPTED && length < before.len() => {
                buffer[length] ^= 1
            }
            Mutant::ShortBufferTouched if number == REFUSED_WRITE_BUFFER => {
                buffer.copy_from_slice(&file[..before.len()]);
            }
            Mutant::OneByteShortAccepted
                if number == REFUSED_WRITE_BUFFER && before.len() + 1 == file.len() =>
            {
                answer.number = ACCEPTED;
            }
            Mutant::ShortBeforeRefused if before.len() < file.len() => {
                answer.number = REFUSED_WRITE_BUFFER
            }
            Mutant::LengthOfShort if number == REFUSED_WRITE_BUFFER => answer.length = file.len(),
            _ => (),
        }
        answer
    }
}

#[test]
fn every_mutant_of_the_calls_on_files_is_found() {
    for mutant in MUTANTS {
        let found = first_difference(&mutant, file::Mutant::None);
        println!("{mutant:?}: {found:?}");
        assert!(found.is_some(), "{mutant:?} was not found");
    }
}
