//! Inputs of the listing program.

use super::super::compare::random_bytes;
use cup_check::calls::{SecondSimulator, Simulator};
use cup_check::engine::Engine;
use cup_check::file::encoding::{assemble, section_bytes};
use cup_check::file::{encode, read};
use cup_check::generate::{files, Family, Rng};
use cup_check::limits::{
    Section, COMMANDS, COMMAND_BYTES, EVENT_BYTES, HEADER_BYTES, LISTING_BUDGET, LISTING_INPUT,
    PAUSED,
};
use cup_check::plan::Plan;
use cup_check::raw::RawState;

/// How an input comes about.
#[derive(Clone, Copy, Debug, PartialEq, Eq, PartialOrd, Ord)]
pub enum Origin {
    /// An accepted plan of each family in turn.
    Plan,
    /// A file of any sort of [`cup_check::generate::files`].
    File,
    /// A beginning of an accepted plan, often none of it or less than a header.
    Beginning,
    /// A plan with bytes behind it.
    WithMore,
    /// Pairs that describe more bytes than are read: 5,004 of them.
    LongerThanRead,
}

impl Origin {
    /// Every origin.
    pub const ALL: [Origin; 5] = [
        Origin::Plan,
        Origin::File,
        Origin::Beginning,
        Origin::WithMore,
        Origin::LongerThanRead,
    ];
}

/// An input, and in how many pieces it comes.
#[derive(Clone, Debug)]
pub struct Input {
    /// How it came about.
    pub origin: Origin,
    /// The bytes.
    pub bytes: Vec<u8>,
    /// How often something is written.
    pub pieces: usize,
}

/// Instants after which a plan is made to end, at and beside the numbers at which the program calls
/// another run.
const LENGTHS: [u64; 9] = [
    1,
    LISTING_BUDGET - 1,
    LISTING_BUDGET,
    LISTING_BUDGET + 1,
    2 * LISTING_BUDGET,
    2 * LISTING_BUDGET + 1,
    3 * LISTING_BUDGET,
    300,
    700,
];

/// Once in so many, an input comes in pieces.
const PIECES_ONCE_IN: usize = 20;

impl Input {
    /// Half of them accepted plans, and of the other half most files of any sort.
    pub fn drawn(rng: &mut Rng, number: u64) -> Input {
        let origin = match number % 10 {
            0 | 2 | 4 | 6 | 8 => Origin::Plan,
            1 => Origin::Beginning,
            3 => Origin::WithMore,
            5 if rng.once_in(3) => Origin::LongerThanRead,
            _ => Origin::File,
        };
        let family = Family::ALL[number as usize / 2 % Family::ALL.len()];
        let bytes = match origin {
            Origin::Plan => plan_file(rng, family),
            Origin::File => any_file(rng),
            Origin::Beginning => beginning(rng, family),
            Origin::WithMore => with_more(rng, family),
            Origin::LongerThanRead => longer_than_read(rng),
        };
        let pieces = if rng.once_in(PIECES_ONCE_IN) {
            2 + rng.below(4)
        } else {
            1
        };
        Input {
            origin,
            bytes,
            pieces,
        }
    }
}

/// An accepted plan that ends soon.
fn plan_file(rng: &mut Rng, family: Family) -> Vec<u8> {
    let plan = family.plan(rng);
    encode(&bounded(rng, plan))
}

/// The same plan, made to end by its horizon where it would take more instants than these.
fn bounded(rng: &mut Rng, plan: Plan) -> Plan {
    let most = rng.pick(&LENGTHS);
    let mut buffer = vec![0; most as usize * plan.events_per_instant() * EVENT_BYTES];
    let start = RawState::start(&plan);
    let ran = SecondSimulator::default().run(Engine::Lazy, &start, most, &mut buffer);
    if ran.status != PAUSED {
        return plan;
    }
    let mut shorter = plan;
    shorter.horizon = ran.state.run.clocks.clock;
    shorter
        .commands
        .retain(|command| command.tick <= ran.state.run.clocks.clock);
    shorter
}

/// A file that is accepted is bounded too.
fn any_file(rng: &mut Rng) -> Vec<u8> {
    let (_, file) = files::any(rng);
    match read(&file) {
        Ok(plan) => encode(&bounded(rng, plan)),
        Err(_) => file,
    }
}

fn beginning(rng: &mut Rng, family: Family) -> Vec<u8> {
    let mut file = plan_file(rng, family);
    let length = match rng.below(4) {
        0 => 0,
        1 => rng.below(HEADER_BYTES + 1),
        2 => file.len() - 1,
        _ => rng.below(file.len()),
    };
    file.truncate(length);
    file
}

/// Some of them so that what is read is one byte more than the longest plan, and the longest plan.
fn with_more(rng: &mut Rng, family: Family) -> Vec<u8> {
    let family = rng.pick(&[family, Family::Full, Family::Wide]);
    let file = plan_file(rng, family);
    let room = LISTING_INPUT.saturating_sub(file.len());
    let more = rng.pick(&[1, 2, room, room + 1, 5_000, 100_000]);
    [file, random_bytes(rng, more)].concat()
}

/// Read whole, these would be refused by 3 and not by 2.
fn longer_than_read(rng: &mut Rng) -> Vec<u8> {
    let plan = Family::Full.plan(rng);
    let mut sections = section_bytes(&plan);
    sections[Section::Commands as usize].resize(COMMANDS * COMMAND_BYTES + 512, 0);
    assemble(plan.horizon, &sections)
}
