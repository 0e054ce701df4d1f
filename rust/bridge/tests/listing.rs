//! The listing program against the second simulator's listing, on the kept plans and on at least
//! [`INPUTS_COMPARED`] inputs.
//!
//! The program is the repository's `target/bin/listing`, which `tools/build` makes; CUP_LISTING names
//! another. CUP_LISTINGS asks for more inputs, CUP_SEED for other ones.

mod common;

use common::{root, Report};
use cup_bridge::campaign::listings::{
    compare, Campaign, Input, Lister, Origin, Program, INPUTS_COMPARED,
};
use cup_check::calls::{SecondSimulator, Simulator};
use cup_check::limits::{LISTING_BUDGET, LISTING_INPUT, LONGEST_FILE};
use cup_check::listing::listing;
use std::path::PathBuf;
use std::{env, fs};

/// The program to compare.
fn program() -> Program {
    let named = env::var_os("CUP_LISTING").map(PathBuf::from);
    let path = named.unwrap_or_else(|| root().join("target/bin/listing"));
    assert!(
        path.is_file(),
        "no listing program at {}: 'tools/build listing' makes it, and CUP_LISTING names another",
        path.display()
    );
    Program { path }
}

#[test]
fn the_listing_program_agrees_with_the_second_simulator() {
    let campaign = Campaign::by_variables();
    let least = INPUTS_COMPARED;
    assert!(campaign.inputs >= least, "CUP_LISTINGS is at least {least}");
    let report = Report {
        title: "listings",
        counted: "inputs",
        seed: campaign.seed,
        mutant: None,
    };
    let program = program();
    let met = report.check(|| campaign.run(&program));
    assert_eq!(met.of("inputs"), campaign.inputs);
}

/// Every file of the folder: the plans, of which the listing beside them has to be printed, those
/// listings themselves and the text about them.
#[test]
fn the_listing_program_lists_every_kept_file() {
    let program = program();
    let mut plans = 0;
    let folder = fs::read_dir(root().join("plans")).expect("the folder of plans");
    for entry in folder {
        let path = entry.expect("a file").path();
        let bytes = fs::read(&path).expect("it can be read");
        let is_plan = path.extension().is_some_and(|ending| ending == "plan");
        plans += usize::from(is_plan);
        let expected = match is_plan {
            true => fs::read_to_string(path.with_extension("txt")).expect("a listing beside it"),
            false => listing(&bytes),
        };
        for pieces in [1, 3] {
            let (origin, bytes) = (Origin::File, bytes.clone());
            let input = Input {
                origin,
                bytes,
                pieces,
            };
            let found = compare(&program, &input, expected.as_bytes());
            assert_eq!(found, Ok(()), "{}", path.display());
        }
    }
    assert!(plans >= 7, "{plans} plans");
}

/// Mutants of the second simulator's listing.
#[derive(Clone, Copy, Debug, PartialEq, Eq)]
enum Mutant {
    WithoutLastNewline,
    WithoutEnd,
    WithoutFirstEvent,
    CarriageReturns,
    Commas,
    UnsignedValues,
    SourceBeforeTick,
    FinishedForRange,
    WithoutUpdates,
    RefusedEntryZero,
    RefusedWithoutEntry,
    FirstRunOnly,
    ReadsOneByteLess,
    ReadsAll,
    ReadsOnePiece,
}

const MUTANTS: [Mutant; 15] = [
    Mutant::WithoutLastNewline,
    Mutant::WithoutEnd,
    Mutant::WithoutFirstEvent,
    Mutant::CarriageReturns,
    Mutant::Commas,
    Mutant::UnsignedValues,
    Mutant::SourceBeforeTick,
    Mutant::FinishedForRange,
    Mutant::WithoutUpdates,
    Mutant::RefusedEntryZero,
    Mutant::RefusedWithoutEntry,
    Mutant::FirstRunOnly,
    Mutant::ReadsOneByteLess,
    Mutant::ReadsAll,
    Mutant::ReadsOnePiece,
];

impl Lister for Mutant {
    fn list(&self, input: &[u8], pieces: usize) -> Result<Vec<u8>, String> {
        let text = match self {
            Mutant::ReadsOneByteLess => listing(&input[..input.len().min(LONGEST_FILE)]),
            Mutant::ReadsAll if input.len() > LISTING_INPUT => refused_whole(input),
            Mutant::ReadsOnePiece => {
                let length = input.len().div_ceil(pieces).max(1);
                listing(input.chunks(length).next().unwrap_or_default())
            }
            _ => self.changed(&listing(input)),
        };
        Ok(text.into_bytes())
    }
}

/// What would be printed of a longer input if all of it were read.
fn refused_whole(input: &[u8]) -> String {
    let loaded = SecondSimulator::default().load(input);
    format!("refused {} {}\n", loaded.number, loaded.entry)
}

impl Mutant {
    fn changed(self, text: &str) -> String {
        let mut lines = text.lines();
        let is_event = |line: &&str| !line.starts_with("end");
        match self {
            Mutant::WithoutLastNewline => text.trim_end().to_string(),
            Mutant::WithoutEnd => lines.filter(is_event).map(ended).collect(),
            Mutant::WithoutFirstEvent if lines.next().is_some_and(|line| is_event(&line)) => {
                lines.map(ended).collect()
            }
            Mutant::CarriageReturns => text.replace('\n', "\r\n"),
            Mutant::Commas => text.replace(' ', ","),
            Mutant::FinishedForRange => text.replace("end 2", "end 1"),
            Mutant::FirstRunOnly => first_run(text),
            _ => {
                let changed = |line| ended(&self.changed_line(line));
                text.lines().map(changed).collect()
            }
        }
    }

    fn changed_line(self, line: &str) -> String {
        let words: Vec<&str> = line.split(' ').collect();
        match (self, &words[..]) {
            (Mutant::WithoutUpdates, ["end", status, clock, instants, _]) => {
                format!("end {status} {clock} {instants}")
            }
            (Mutant::RefusedEntryZero, ["refused", number, _]) => format!("refused {number} 0"),
            (Mutant::RefusedWithoutEntry, ["refused", number, _]) => format!("refused {number}"),
            (Mutant::SourceBeforeTick, [tick, source, value]) if *tick != "refused" => {
                format!("{source} {tick} {value}")
            }
            (Mutant::UnsignedValues, [tick, source, value]) if value.starts_with('-') => {
                let value: i32 = value.parse().expect("a value");
                format!("{tick} {source} {}", value as u32)
            }
            _ => line.to_string(),
        }
    }
}

fn ended(line: &str) -> String {
    format!("{line}\n")
}

/// The events of the first 64 ticks, and the right end.
fn first_run(text: &str) -> String {
    let tick = |line: &&str| line.split(' ').next().map(str::to_string);
    let mut ticks: Vec<Option<String>> = text.lines().map(|line| tick(&line)).collect();
    ticks.dedup();
    ticks.truncate(LISTING_BUDGET as usize);
    let kept = |line: &&str| line.starts_with("end") || ticks.contains(&tick(line));
    text.lines().filter(kept).map(ended).collect()
}

#[test]
fn every_mutant_of_the_listing_is_found() {
    let (inputs, seed) = (600, 1);
    let campaign = Campaign { inputs, seed };
    for mutant in MUTANTS {
        let found = campaign.run(&mutant).differences.into_iter().next();
        println!("{mutant:?}: {found:?}");
        assert!(found.is_some(), "{mutant:?} was not found");
    }
}
