//! One instant, and the status that tells whether it can be taken.

use super::rules::Rules;
use super::state::{IntegratorState, State};
use super::Engine;
use crate::limits::{NEVER, WORD_BYTES};
use crate::status::Status;
use crate::words::set_word;

/// "Next instant t: the least of all d and the next command's tick", or [`NEVER`].
pub fn next_tick(state: &State) -> u32 {
    let command = state.plan.commands.get(state.next);
    let command_tick = command.map_or(NEVER, |command| command.tick);
    let dues = state.integrators.iter().map(|integrator| integrator.d);
    dues.fold(command_tick, u32::min)
}

/// Finished goes before range, and range before paused.
pub fn status(state: &State, rules: &Rules) -> Status {
    let tick = next_tick(state);
    if tick == NEVER || tick > state.plan.horizon {
        return Status::Finished;
    }
    let barred = |integrator: &IntegratorState| {
        integrator.d == tick && (rules.bars)(integrator.position_at(tick))
    };
    match state.integrators.iter().position(barred) {
        Some(integrator) => Status::Range(integrator),
        None => Status::Paused,
    }
}

/// What the first steps of an instant leave behind for the later ones.
struct Instant {
    tick: u32,
    /// Which integrators are due.
    due: Vec<bool>,
    /// Which inputs are commanded.
    commanded: Vec<bool>,
    /// By source number: set at this instant, or a node that depends on such a source.
    touched: Vec<bool>,
    /// The outputs before step 1.
    former_outputs: Vec<i64>,
}

/// Takes the next instant of a paused state and writes its events to the front of `buffer`;
/// answers the number of bytes written.
pub fn take(state: &mut State, engine: Engine, buffer: &mut [u8], rules: &Rules) -> usize {
    let tick = next_tick(state);
    let mut instant = Instant {
        tick,
        due: state
            .integrators
            .iter()
            .map(|integrator| integrator.d == tick)
            .collect(),
        commanded: vec![false; state.inputs.len()],
        touched: vec![false; state.plan.sources()],
        former_outputs: state.outputs(),
    };
    set_due_outputs(state, &mut instant, rules);
    obey_commands(state, &mut instant, rules);
    touch_nodes(state, &mut instant, rules);
    let moved = move_integrators(state, engine, &instant, rules);
    state.clock = tick;
    state.instants += 1;
    state.updates += moved;
    write_events(state, &instant, buffer)
}

/// Step 1.
fn set_due_outputs(state: &mut State, instant: &mut Instant, rules: &Rules) {
    for (number, integrator) in state.integrators.iter_mut().enumerate() {
        if instant.due[number] {
            let quantum = i128::from(state.plan.integrators[number].quantum);
            let position = integrator.position_at(instant.tick);
            let output = (rules.due_output)(position, i128::from(integrator.q), quantum);
            integrator.q = i64::try_from(output).expect("within ±M, or the instant is barred");
            instant.touched[number] = true;
        }
    }
}

/// Step 2.
fn obey_commands(state: &mut State, instant: &mut Instant, rules: &Rules) {
    while let Some(command) = state.plan.commands.get(state.next) {
        if command.tick != instant.tick {
            break;
        }
        let before = std::mem::replace(&mut state.inputs[command.input], command.value);
        instant.commanded[command.input] = true;
        instant.touched[state.plan.input_source(command.input)] =
            (rules.command_reaches)(before, command.value);
        state.next += 1;
    }
}

/// Step 4's dependence. A node names lower sources only, so one pass upwards follows it all.
fn touch_nodes(state: &State, instant: &mut Instant, rules: &Rules) {
    for (number, node) in state.plan.nodes.iter().enumerate() {
        let by_a = instant.touched[node.a];
        let by_b = (rules.follows_b)(node) && instant.touched[node.b];
        instant.touched[state.plan.node_source(number)] =
            rules.nodes_are_followed && (by_a || by_b);
    }
}

/// Steps 3 and 5; answers how many integrators were moved.
fn move_integrators(state: &mut State, engine: Engine, instant: &Instant, rules: &Rules) -> u64 {
    let reached = reached_integrators(state, instant);
    let values = state.source_values(&state.outputs(), rules);
    let mut moved = 0;
    for (number, &is_reached) in reached.iter().enumerate() {
        if (rules.moves)(engine, instant.due[number], is_reached) {
            move_integrator(state, number, instant, rules);
            if rules.slopes_after_outputs {
                state.set_slope_and_due(number, &values, rules);
            } else {
                let early = values_when_set_one_by_one(state, number, instant, rules);
                state.set_slope_and_due(number, &early, rules);
            }
            moved += 1;
        }
    }
    moved
}

/// "An integrator is reached if a link of its own names" a touched source.
fn reached_integrators(state: &State, instant: &Instant) -> Vec<bool> {
    let mut reached = vec![false; state.integrators.len()];
    for link in &state.plan.links {
        reached[link.target] |= instant.touched[link.source];
    }
    reached
}

/// The position of step 5: the new output if due, else the old line followed to this tick.
fn move_integrator(state: &mut State, number: usize, instant: &Instant, rules: &Rules) {
    let integrator = &mut state.integrators[number];
    integrator.x = if instant.due[number] {
        integrator.q
    } else {
        i64::try_from(integrator.position_at(instant.tick)).expect("between the levels")
    };
    integrator.l = instant.tick;
    if !instant.due[number] {
        integrator.q = (rules.receiver_output)(integrator.q, integrator.x);
    }
}

/// The source values seen if outputs were set one integrator at a time, up to `number`.
fn values_when_set_one_by_one(
    state: &State,
    number: usize,
    instant: &Instant,
    rules: &Rules,
) -> Vec<i128> {
    let mut outputs = state.outputs();
    outputs[number + 1..].copy_from_slice(&instant.former_outputs[number + 1..]);
    state.source_values(&outputs, rules)
}

/// Integrators have lower source numbers than inputs, so this order ascends.
fn write_events(state: &State, instant: &Instant, buffer: &mut [u8]) -> usize {
    let outputs = state.integrators.iter().map(|integrator| integrator.q);
    let values = outputs.chain(state.inputs.iter().copied());
    let flags = instant.due.iter().chain(&instant.commanded);
    let mut written = 0;
    for (source, (value, &occurs)) in values.zip(flags).enumerate() {
        if occurs {
            for word in [instant.tick, source as u32, value as i32 as u32] {
                set_word(buffer, written, word);
                written += WORD_BYTES;
            }
        }
    }
    written
}
