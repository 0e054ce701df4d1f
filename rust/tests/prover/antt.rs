//! Values as the prover's terms.

use crate::common::MARK;
use cup_check::engine::Engine;
use cup_check::generate::Call;
use cup_check::limits::{INPUTS, INTEGRATORS, NEVER};
use cup_check::plain::Plain;
use cup_check::raw::{RawCommands, RawCounts, RawLinks, RawNodes, RawPlan, RawRunning, RawState};

/// Types. Records that the cases do not bring in go by their full names.
pub const BYTES: &str = "(List ℕ)";
pub const CALLS: &str = "(List Call)";
pub const STATE: &str = "State";
pub const PLAN: &str = "Rattle.plan.specs.declared.Plan.Plan";
pub const RUNNING: &str = "Rattle.machine.specs.declared.Running.Running";
pub const PLAIN: &str = "Rattle.machine.specs.Plain.Plain";

/// A case: a type, what the definitions say, what it is to be.
pub fn case(kind: &str, computed: &str, expected: &str) -> String {
    format!("case {kind} ({computed}) {expected}")
}

pub fn nat_case(computed: &str, expected: u64) -> String {
    case("ℕ", computed, &nat(expected))
}

pub fn int_case(computed: &str, expected: i64) -> String {
    case("ℤ", computed, &format!("({})", int(expected)))
}

pub fn truth_case(computed: &str, expected: bool) -> String {
    case("Bool", computed, if expected { "true" } else { "false" })
}

pub fn bytes_case(computed: &str, expected: &[u8]) -> String {
    case(BYTES, computed, &bytes(expected))
}

/// A field of what is computed.
pub fn field(computed: &str, name: &str) -> String {
    format!("({computed}).{name}")
}

fn nat(value: u64) -> String {
    value.to_string()
}

fn int(value: i64) -> String {
    match value < 0 {
        true => format!("negsuc {}", -(value + 1)),
        false => format!("pos {value}"),
    }
}

/// A list, with its last entries written as one repetition where they are equal to `rest`.
fn list<T: PartialEq>(values: &[T], rest: &T, term: impl Fn(&T) -> String) -> String {
    let used = values
        .iter()
        .rposition(|value| value != rest)
        .map_or(0, |last| last + 1);
    let front: String = values[..used]
        .iter()
        .map(|value| term(value) + " ∷ ")
        .collect();
    match values.len() - used {
        0 => format!("({front}[])"),
        left => format!("({front}replicate {left} ({}))", term(rest)),
    }
}

fn ints(values: &[i64]) -> String {
    list(values, &0, |&value| int(value))
}

fn nats(values: &[u64]) -> String {
    list(values, &0, |&value| nat(value))
}

fn words(values: &[u32]) -> String {
    nats(
        &values
            .iter()
            .map(|&value| u64::from(value))
            .collect::<Vec<_>>(),
    )
}

fn sizes(values: &[usize]) -> String {
    nats(&values.iter().map(|&value| value as u64).collect::<Vec<_>>())
}

/// Every byte, so that none is left to a repetition.
pub fn bytes(values: &[u8]) -> String {
    let front: String = values.iter().map(|value| format!("{value} ∷ ")).collect();
    format!("({front}[])")
}

/// A buffer of a length as the tests fill it.
pub fn buffer(length: usize) -> String {
    format!("(replicate {length} {MARK})")
}

/// A call, with a buffer of its length.
pub fn call(call: &Call) -> String {
    let engine = match call.engine {
        Engine::Lazy => "Lazy",
        Engine::Eager => "Eager",
    };
    record(&[
        ("engine", engine.to_string()),
        ("budget", nat(call.budget)),
        ("buffer", buffer(call.buffer)),
    ])
}

/// The calls of a list.
pub fn calls(list: &[Call]) -> String {
    let front: String = list.iter().map(|entry| call(entry) + " ∷ ").collect();
    format!("({front}[])")
}

/// A state, unused entries included.
pub fn state(state: &RawState) -> String {
    record(&[("plan", plan(&state.plan)), ("run", running(&state.run))])
}

/// A record of fields and their terms.
fn record(fields: &[(&str, String)]) -> String {
    let fields = fields.iter().map(|(name, term)| format!("{name} = {term}"));
    format!("(record {{ {} }})", fields.collect::<Vec<_>>().join("; "))
}

/// Running figures, unused entries included.
fn running(run: &RawRunning) -> String {
    let clocks = &run.clocks;
    record(&[
        ("x", ints(&run.x)),
        ("q", ints(&run.q)),
        ("s", ints(&run.s)),
        ("l", words(&run.l)),
        ("d", words(&run.d)),
        ("inputs", ints(&run.inputs)),
        (
            "clocks",
            record(&[
                ("clock", clocks.clock.to_string()),
                ("next", clocks.next.to_string()),
                ("instants", nat(clocks.instants)),
                ("updates", nat(clocks.updates)),
            ]),
        ),
    ])
}

/// A plan as a state holds it.
fn plan(plan: &RawPlan) -> String {
    record(&[
        ("horizon", plan.horizon.to_string()),
        ("counts", counts(&plan.counts)),
        (
            "integrators",
            record(&[
                ("starts", ints(&plan.integrators.starts)),
                ("quanta", ints(&plan.integrators.quanta)),
            ]),
        ),
        ("inputs", record(&[("firsts", ints(&plan.inputs.firsts))])),
        ("nodes", nodes(&plan.nodes)),
        ("links", links(&plan.links)),
        ("commands", commands(&plan.commands)),
    ])
}

fn counts(counts: &RawCounts) -> String {
    record(&[
        ("n", counts.n.to_string()),
        ("m", counts.m.to_string()),
        ("k", counts.k.to_string()),
        ("links", counts.links.to_string()),
        ("commands", counts.commands.to_string()),
    ])
}

fn nodes(nodes: &RawNodes) -> String {
    record(&[
        ("kinds", sizes(&nodes.kinds)),
        ("a", sizes(&nodes.a)),
        ("b", sizes(&nodes.b)),
        ("lows", ints(&nodes.lows)),
        ("highs", ints(&nodes.highs)),
    ])
}

fn links(links: &RawLinks) -> String {
    record(&[
        ("targets", sizes(&links.targets)),
        ("sources", sizes(&links.sources)),
        ("coefficients", ints(&links.coefficients)),
    ])
}

fn commands(commands: &RawCommands) -> String {
    record(&[
        ("ticks", words(&commands.ticks)),
        ("inputs", sizes(&commands.inputs)),
        ("values", ints(&commands.values)),
    ])
}

/// The plain machine's record, its lists filled up with 0 to the width of the arrays.
pub fn plain(machine: &Plain) -> String {
    let filled = |values: &[i64], width: usize| {
        let mut values = values.to_vec();
        values.resize(width, 0);
        ints(&values)
    };
    let mut dues: Vec<u64> = machine
        .dues
        .iter()
        .map(|due| due.unwrap_or(u64::from(NEVER)))
        .collect();
    dues.resize(INTEGRATORS, 0);
    let held = record(&[
        ("q", filled(&machine.outputs, INTEGRATORS)),
        ("inputs", filled(&machine.inputs, INPUTS)),
        ("next", machine.next_command.to_string()),
        ("instants", nat(machine.instants)),
    ]);
    record(&[
        ("x", filled(&machine.positions, INTEGRATORS)),
        ("s", filled(&machine.slopes, INTEGRATORS)),
        ("d", nats(&dues)),
        ("clock", nat(machine.clock)),
        ("held", held),
    ])
}
