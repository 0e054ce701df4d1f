//! Instructions of fixed calls, counted by valgrind: the proved ones and those written by hand.
//!
//! Without arguments it has valgrind run this program once for each call, and prints tables. With
//! arguments it makes that one call, for valgrind to count.

use cup_bridge::measure::{groups, plans};
use cup_bridge::state::State;
use cup_bridge::{machine, section};
use cup_check::fast;
use cup_check::file::{encode, read};
use cup_check::limits::{run_bytes, LARGEST_BUDGET, LISTING_BUDGET, LONGEST_FILE, SECTION_LINKS};
use cup_check::raw::RawState;
use cup_check::samples;
use std::env;
use std::hint::black_box;
use std::io::ErrorKind;
use std::process::{Command, ExitCode};
use std::thread;

const NOTES: &str = "\
Instructions that one call executes, by valgrind's callgrind. The numbers behind a run are budgets.
Section is the view of the links; position is asked for integrator 0 after a lazy run with budget 64;
the other calls are given the loaded state. Copying inside a call counts, handing a state over does not.
";

/// The plans of the folder `plans` that are counted.
const SAMPLES: [&str; 4] = ["sample", "chain", "full", "long"];
/// The plans of the benchmark of runs: n integrators, or 32 in pairs.
const BENCHMARKED: [&str; 4] = ["1", "8", "32", "pairs"];

/// The calls that the sample plans are counted with.
const CALLS: [(Call, u64); 7] = [
    (Call::Load, 0),
    (Call::Section, 0),
    (Call::Write, 0),
    (Call::Position, LISTING_BUDGET),
    (Call::Sound, 0),
    (Call::RunLazy, LISTING_BUDGET),
    (Call::RunEager, LISTING_BUDGET),
];
/// Those of the benchmark's plans.
const RUNS: [(Call, u64); 2] = [(Call::RunLazy, 0), (Call::RunLazy, LARGEST_BUDGET)];

/// Who makes the call.
#[derive(Clone, Copy, Debug, PartialEq, Eq)]
enum Side {
    Proved,
    ByHand,
}

#[derive(Clone, Copy, Debug, PartialEq, Eq)]
enum Call {
    Load,
    Section,
    Write,
    Position,
    Sound,
    RunLazy,
    RunEager,
}

fn main() -> ExitCode {
    let arguments: Vec<String> = env::args().skip(1).collect();
    let done = match &arguments[..] {
        [] => print_tables(),
        [side, call, plan, budget] => make_call(side, call, plan, budget),
        _ => Err("it takes no arguments, or side, call, plan and budget".to_string()),
    };
    match done {
        Ok(()) => ExitCode::SUCCESS,
        Err(reason) => {
            eprintln!("instructions: {reason}");
            ExitCode::FAILURE
        }
    }
}

fn print_tables() -> Result<(), String> {
    valgrind(&["--version".to_string()])?;
    println!("{NOTES}");
    for (side, title) in Side::BOTH {
        print_table(side, title, &CALLS, &SAMPLES)?;
    }
    for (side, title) in Side::BOTH {
        print_table(side, title, &RUNS, &BENCHMARKED)?;
    }
    print_growth()
}

/// What an instant executes, by n and by how many integrators it moves.
fn print_growth() -> Result<(), String> {
    println!("An instant that has one event, with n integrators of which so many are moved");
    let columns = ["lazy", "by hand", "eager", "by hand"].map(|column| format!("{column:>10}"));
    println!("{:10}{:10}{}", "n", "moved", columns.concat());
    for (n, moved) in groups::SIZES {
        assert_moves(n, moved);
        print!("{n:<10}{moved:<10}");
        for call in [Call::RunLazy, Call::RunEager] {
            for (side, _) in Side::BOTH {
                let plan = format!("{n}/{moved}");
                let [none, all] = [0, LARGEST_BUDGET].map(|of| counted(side, call, &plan, of));
                print!("{:>10}", (all? - none?) / LARGEST_BUDGET);
            }
        }
        println!();
    }
    Ok(())
}

/// That the instants which are counted move so many.
fn assert_moves(n: usize, moved: usize) {
    let mut buffer = vec![0; run_bytes(LARGEST_BUDGET as usize)];
    let ran = fast::run_lazy(groups::state(n, moved), LARGEST_BUDGET, &mut buffer);
    let clocks = &ran.state.run.clocks;
    assert_eq!(clocks.instants, LARGEST_BUDGET);
    assert_eq!(clocks.updates, moved as u64 * LARGEST_BUDGET);
}

/// A line for each plan, a column for each call.
fn print_table(
    side: Side,
    title: &str,
    calls: &[(Call, u64)],
    plans: &[&str],
) -> Result<(), String> {
    let heads = calls.iter().map(|(call, budget)| call.head(*budget));
    let heads: String = heads.map(|head| format!("{head:>16}")).collect();
    println!("{title:10}{heads}");
    for plan in plans {
        print!("{plan:10}");
        for (call, budget) in calls {
            print!("{:>16}", counted(side, *call, plan, *budget)?);
        }
        println!();
    }
    println!();
    Ok(())
}

/// Has valgrind count what one call executes.
fn counted(side: Side, call: Call, plan: &str, budget: u64) -> Result<u64, String> {
    let program = env::current_exe().map_err(|error| error.to_string())?;
    let symbol = side.symbol(call);
    let said = valgrind(&[
        "--tool=callgrind".to_string(),
        "--callgrind-out-file=/dev/null".to_string(),
        // As names are in the program's table of symbols, so that the pattern fits.
        "--demangle=no".to_string(),
        format!("--toggle-collect={symbol}"),
        program.display().to_string(),
        side.word().to_string(),
        call.word().to_string(),
        plan.to_string(),
        budget.to_string(),
    ])?;
    let count = said.lines().find_map(|line| line.split_once("Collected :"));
    let count = count.and_then(|(_, count)| count.trim().parse().ok());
    // Nothing is counted where the function has another name.
    count
        .filter(|&count| count > 0)
        .ok_or_else(|| format!("valgrind counted nothing for {symbol}:\n{said}"))
}

/// What valgrind says.
fn valgrind(arguments: &[String]) -> Result<String, String> {
    let output = Command::new("valgrind").args(arguments).output();
    let output = output.map_err(|error| match error.kind() {
        ErrorKind::NotFound => "it needs valgrind, which was not found".to_string(),
        _ => format!("valgrind: {error}"),
    })?;
    let said = String::from_utf8_lossy(&output.stderr).into_owned();
    match output.status.success() {
        true => Ok(said),
        false => Err(format!("valgrind failed:\n{said}")),
    }
}

/// Makes one call, by the words of [`counted`].
fn make_call(side: &str, call: &str, plan: &str, budget: &str) -> Result<(), String> {
    let side = Side::BOTH.into_iter().find(|(of, _)| of.word() == side);
    let (side, _) = side.ok_or("no such side")?;
    let call = Call::ALL.into_iter().find(|of| of.word() == call);
    let call = call.ok_or("no such call")?;
    let state = state_of(plan).ok_or("no such plan")?;
    let budget = budget.parse().map_err(|_| "the budget is no number")?;
    // A thread's stack starts at a page, and that of the program where its arguments and variables
    // end. How many instructions a copy takes depends on where it lies.
    let made = thread::spawn(move || match side {
        Side::Proved => make_proved(call, &state, budget),
        Side::ByHand => make_by_hand(call, &state, budget),
    });
    made.join().map_err(|_| "the call failed".to_string())
}

/// What a plan of the tables starts with; n and how many are moved have a '/' between them.
fn state_of(plan: &str) -> Option<RawState> {
    if let Some((n, moved)) = plan.split_once('/') {
        return Some(groups::state(n.parse().ok()?, moved.parse().ok()?));
    }
    let plan = match plan {
        "pairs" => plans::pairs(),
        _ if BENCHMARKED.contains(&plan) => plans::mixed(plan.parse().ok()?),
        _ => {
            let mut all = samples::all().into_iter();
            read(&all.find(|sample| sample.name == plan)?.file).ok()?
        }
    };
    Some(RawState::start(&plan))
}

fn file_of(state: &RawState) -> Vec<u8> {
    encode(&state.plan.to_plan().expect("an accepted plan"))
}

fn make_proved(call: Call, raw: &RawState, budget: u64) {
    let (file, state) = (file_of(raw), State::from(raw));
    let mut buffer = vec![0; run_bytes(budget as usize).max(LONGEST_FILE)];
    match call {
        Call::Load => made(machine::load(&file)),
        Call::Section => made(section(&file, SECTION_LINKS).len()),
        Call::Write => made(machine::write(&state, &mut buffer)),
        Call::Sound => made(machine::sound(&state)),
        Call::RunLazy => made(machine::run_lazy(&state, budget, &mut buffer)),
        Call::RunEager => made(machine::run_eager(&state, budget, &mut buffer)),
        Call::Position => {
            let ran = machine::run_lazy(&state, budget, &mut buffer);
            made(machine::position(&ran.state, 0));
        }
    }
}

fn make_by_hand(call: Call, raw: &RawState, budget: u64) {
    let (file, state) = (file_of(raw), raw.clone());
    let mut buffer = vec![0; run_bytes(budget as usize).max(LONGEST_FILE)];
    match call {
        Call::Load => made(fast::load(&file)),
        Call::Section => made(fast::section(&file, SECTION_LINKS).len()),
        Call::Write => made(fast::write(state, &mut buffer)),
        Call::Sound => made(fast::sound(state)),
        Call::RunLazy => made(fast::run_lazy(state, budget, &mut buffer)),
        Call::RunEager => made(fast::run_eager(state, budget, &mut buffer)),
        Call::Position => {
            let ran = fast::run_lazy(state, budget, &mut buffer);
            made(fast::position(ran.state, 0));
        }
    }
}

/// What a call answers; the compiler may not find out that nothing reads it.
fn made<T>(answer: T) {
    black_box(answer);
}

impl Side {
    const BOTH: [(Side, &'static str); 2] = [(Side::Proved, "proved"), (Side::ByHand, "by hand")];

    fn word(self) -> &'static str {
        match self {
            Side::Proved => "proved",
            Side::ByHand => "by-hand",
        }
    }

    /// The function's name in the table of symbols, as a pattern. A name in Rust has the length of
    /// each of its parts in front of the part.
    fn symbol(self, call: Call) -> String {
        let parts: &[&str] = match (self, call) {
            (Side::Proved, _) => return format!("cup_{}", call.word()),
            (Side::ByHand, Call::Load) => &["fast", "start", "load"],
            (Side::ByHand, Call::Section) => &["fast", "read", "section"],
            (Side::ByHand, Call::Write) => &["fast", "write", "write"],
            (Side::ByHand, Call::Sound) => &["fast", "sound", "sound"],
            (Side::ByHand, _) => &["fast", call.word()],
        };
        let parts = parts.iter().map(|part| format!("{}{part}", part.len()));
        format!("*{}*", parts.collect::<String>())
    }
}

impl Call {
    const ALL: [Call; 7] = [
        Call::Load,
        Call::Section,
        Call::Write,
        Call::Position,
        Call::Sound,
        Call::RunLazy,
        Call::RunEager,
    ];

    /// The proved function's name behind `cup_`.
    fn word(self) -> &'static str {
        match self {
            Call::Load => "load",
            Call::Section => "section",
            Call::Write => "write",
            Call::Position => "position",
            Call::Sound => "sound",
            Call::RunLazy => "run_lazy",
            Call::RunEager => "run_eager",
        }
    }

    fn head(self, budget: u64) -> String {
        match self {
            Call::RunLazy | Call::RunEager => format!("{} {budget}", self.word()),
            _ => self.word().to_string(),
        }
    }
}
