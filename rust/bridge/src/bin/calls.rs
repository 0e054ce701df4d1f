//! Times of each call beside its counterpart that is written by hand for speed, in one run.

use cup_bridge::measure::sides::{Calls, Start};
use cup_bridge::measure::{repeated, times, warn_of_checks, Repeated};
use cup_bridge::{machine, read, section};
use cup_check::engine::Engine;
use cup_check::fast;
use cup_check::file::read as read_plan;
use cup_check::limits::{ACCEPTED, LONGEST_FILE, SECTION_LINKS};
use cup_check::raw::RawState;
use cup_check::samples;
use std::cell::RefCell;
use std::hint::black_box;

const NOTES: &str = "\
Times in ns for a call; a ratio is the proved call's time over the hand-written one's, and below 1
the proved one is faster. Each time is the best of 101 batches, with the batches of both in turn.

load      A file to a state, which is answered in a box by either side.
read      A file to number and entry.
section   The section view of the links, which reads the whole file.
write     The plan writer. Like the next ones it is handed a copy of the loaded state by value.
position  The position call, for integrator 0.
sound     The test of soundness as a call of its own.
run       A run with this budget, by the lazy or the eager engine.

The proved write, position and runs test the state that they are handed for soundness; the hand-written
ones do not. What both sides answer is first seen to be the same.
";

/// The plans of the folder `plans` that are timed.
const PLANS: [&str; 4] = ["sample", "chain", "full", "long"];

/// A plan's file and its loaded state, and a buffer that a file fits.
struct Sample {
    name: &'static str,
    file: Vec<u8>,
    start: Start,
    buffer: RefCell<Vec<u8>>,
}

/// A call by both sides, the proved one first.
type Sides<'s> = [Repeated<'s>; 2];

/// Sees that both sides of a call answer the same on a plan, and hands them back to be timed.
type Compared = fn(&Sample) -> Sides<'_>;

/// The calls by the names of their lines.
const CALLS: [(&str, Compared); 10] = [
    ("load", load),
    ("read", read_only),
    ("section", view),
    ("write", write),
    ("position", position),
    ("sound", sound),
    ("run lazy, 0", |sample| run(sample, Engine::Lazy, 0)),
    ("run lazy, 1", |sample| run(sample, Engine::Lazy, 1)),
    ("run eager, 0", |sample| run(sample, Engine::Eager, 0)),
    ("run eager, 1", |sample| run(sample, Engine::Eager, 1)),
];

fn main() {
    println!("{NOTES}");
    warn_of_checks();
    let samples = PLANS.map(Sample::named);
    println!(
        "{:16}{:10}{:>10}{:>10}{:>8}",
        "call", "plan", "proved", "by hand", "ratio"
    );
    for (call, sides) in CALLS {
        for sample in &samples {
            let [proved, by_hand] = times(&sides(sample)).map(|times| times.best);
            let (name, ratio) = (sample.name, proved / by_hand);
            println!("{call:16}{name:10}{proved:>10.0}{by_hand:>10.0}{ratio:>8.2}");
        }
    }
}

impl Sample {
    fn named(name: &'static str) -> Sample {
        let mut all = samples::all().into_iter();
        let file = all
            .find(|sample| sample.name == name)
            .expect("a sample")
            .file;
        let plan = read_plan(&file).expect("an accepted sample");
        Sample {
            name,
            file,
            start: Start::of(&plan),
            buffer: RefCell::new(vec![0; LONGEST_FILE]),
        }
    }

    /// A copy of the loaded state.
    fn state(&self) -> RawState {
        black_box(self.start.raw()).clone()
    }
}

fn load(sample: &Sample) -> Sides<'_> {
    let file = &sample.file[..];
    let (proved, by_hand) = (machine::load(file), fast::load(file));
    let numbers = (by_hand.number, by_hand.entry);
    assert_eq!((proved.number, proved.entry), numbers);
    assert!(RawState::from(&proved.state) == by_hand.state);
    [
        repeated(|| machine::load(black_box(file))),
        repeated(|| fast::load(black_box(file))),
    ]
}

fn read_only(sample: &Sample) -> Sides<'_> {
    let file = &sample.file[..];
    assert_eq!(read(file).number, ACCEPTED);
    assert_eq!(fast::read(file), Ok(()));
    [
        repeated(|| read(black_box(file))),
        repeated(|| fast::read(black_box(file))),
    ]
}

fn view(sample: &Sample) -> Sides<'_> {
    let file = &sample.file[..];
    let [proved, by_hand] = [section, fast::section].map(|view| view(file, SECTION_LINKS));
    assert_eq!(proved.as_ptr_range(), by_hand.as_ptr_range());
    [
        repeated(|| section(black_box(file), SECTION_LINKS)),
        repeated(|| fast::section(black_box(file), SECTION_LINKS)),
    ]
}

fn write(sample: &Sample) -> Sides<'_> {
    let proved = || {
        machine::write(
            black_box(sample.start.state()),
            &mut sample.buffer.borrow_mut(),
        )
    };
    let by_hand = || Box::new(fast::write(sample.state(), &mut sample.buffer.borrow_mut()));
    let written = || sample.buffer.borrow()[..sample.file.len()].to_vec();
    assert_eq!(proved().length, sample.file.len());
    assert_eq!(written(), sample.file);
    sample.buffer.borrow_mut().fill(0);
    assert_eq!(by_hand().length, sample.file.len());
    assert_eq!(written(), sample.file);
    assert!(RawState::from(&proved().state) == by_hand().state);
    [repeated(proved), repeated(by_hand)]
}

fn position(sample: &Sample) -> Sides<'_> {
    let proved = || machine::position(black_box(sample.start.state()), black_box(0));
    let by_hand = || Box::new(fast::position(sample.state(), black_box(0)));
    let answered = (by_hand().number, by_hand().value);
    assert_eq!((proved().number, proved().value), answered);
    assert!(RawState::from(&proved().state) == by_hand().state);
    [repeated(proved), repeated(by_hand)]
}

fn sound(sample: &Sample) -> Sides<'_> {
    let proved = || machine::sound(black_box(sample.start.state()));
    let by_hand = || fast::sound(sample.state());
    assert!(proved() && by_hand());
    [repeated(proved), repeated(by_hand)]
}

fn run(sample: &Sample, engine: Engine, budget: u64) -> Sides<'_> {
    let calls = Calls { budget, count: 1 };
    sample.start.agreed_end(calls);
    [
        repeated(move || sample.start.proved(engine, calls, &mut |_| ())),
        repeated(move || sample.start.called(engine, calls, &mut |_| ())),
    ]
}
