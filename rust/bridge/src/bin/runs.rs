//! Times of runs: the proved engines beside an engine written by hand for speed, in one run.

use cup_bridge::machine;
use cup_bridge::measure::sides::{Calls, Start};
use cup_bridge::measure::{groups, plans};
use cup_bridge::measure::{repeated, times, warn_of_checks, Repeated};
use cup_check::engine::Engine;
use cup_check::file::rules;
use cup_check::limits::{FINISHED, LARGEST_BUDGET, LISTING_BUDGET, PAUSED};
use cup_check::plan::Plan;
use std::hint::black_box;

const NOTES: &str = "\
A ratio is the time of the proved lazy engine over that of the hand-written one; below 1 the proved
one is faster. Each figure is the best of 101 batches, with the batches of all sides in turn.

lazy, eager  The proved calls, as the bridge has them: each call tests its state for soundness, works
             its tables out, and is handed a state of 9,808 bytes by value and answers one in a box.
called       The hand-written lazy engine in the form of a call: likewise, but without the test.
kept         The hand-written lazy engine with its tables and figures kept over the calls.
readable     The second simulator's lazy engine, written to be read, with its state kept.

A run starts from the loaded state: copying that is timed, loading it is not, nor is working out the
tables of the form that keeps them. No side clears the buffer between calls. All sides are first seen
to end in the same state, with the same events.

The last table has plans of which an instant moves just so many of n cups; each has 8 links. The
lazy engine moves those, the eager engine all.
";

/// Instants of a run, but for the chains.
const INSTANTS: u64 = 4_096;
/// The sides in the order of their columns.
const SIDES: [&str; 5] = ["lazy", "eager", "called", "kept", "readable"];

fn main() {
    println!("{NOTES}");
    warn_of_checks();
    let mut plans = [1, 4, 8, 16, 32]
        .map(|n| (format!("n = {n}"), plans::mixed(n)))
        .to_vec();
    plans.push(("n = 32 in pairs".to_string(), plans::pairs()));
    print_speeds(&plans);
    print_calls(&plans);
    print_chains();
    print_growth();
}

/// Instants a second.
fn print_speeds(plans: &[(String, Plan)]) {
    println!("Thousands of instants a second, over {INSTANTS} instants");
    print_head("plan, budget; links; moved and events an instant; clock");
    for budget in [LISTING_BUDGET, LARGEST_BUDGET] {
        for (name, plan) in plans {
            let start = start_of(plan);
            let calls = Calls {
                budget,
                count: (INSTANTS / budget) as usize,
            };
            let end = start.agreed_end(calls);
            let clocks = &end.state.run.clocks;
            assert_eq!((end.status, clocks.instants), (PAUSED, INSTANTS));
            let taken = timed(&start, calls);
            let each = |sum: f64| sum / INSTANTS as f64;
            let (moved, events) = (each(clocks.updates as f64), each(end.events_count() as f64));
            let what = format!(
                "{name}, {budget}; {}; {moved:.2}, {events:.2}; {}",
                plan.links.len(),
                clocks.clock
            );
            print_line(taken, taken.map(|ns| INSTANTS as f64 * 1e6 / ns), 0, &what);
        }
    }
}

/// What a call takes, and of that what does not grow with the budget.
fn print_calls(plans: &[(String, Plan)]) {
    println!("\nMicroseconds of one call from the loaded state");
    print_head("plan, budget; soundness; a state handed over and back");
    for (name, plan) in [&plans[0], &plans[2], &plans[4]] {
        let start = start_of(plan);
        let [soundness, echo] = times(&[
            repeated(|| machine::sound(black_box(start.state()))),
            repeated(|| machine::echo(black_box(start.state()))),
        ])
        .map(|times| times.best / 1e3);
        for budget in [0, 1, LARGEST_BUDGET] {
            let calls = Calls { budget, count: 1 };
            start.agreed_end(calls);
            let taken = timed(&start, calls);
            let what = format!("{name}, {budget}; {soundness:.2}; {echo:.2}");
            print_line(taken, taken.map(|ns| ns / 1e3), 2, &what);
        }
    }
}

/// The chains, each from its start to its end.
fn print_chains() {
    println!("\nMicroseconds of a whole run of the chain, with budget 1,024");
    print_head("cups; instants; calls; moved and events an instant");
    for cups in [1, 8, 32] {
        let start = start_of(&plans::chain(cups));
        let budget = LARGEST_BUDGET;
        let calls = Calls { budget, count: 10 };
        let end = start.agreed_end(calls);
        let clocks = &end.state.run.clocks;
        assert_eq!(end.status, FINISHED);
        let taken = timed(&start, calls);
        let count = clocks.instants / budget + 1;
        let each = |sum: f64| sum / clocks.instants as f64;
        let (moved, events) = (each(clocks.updates as f64), each(end.events_count() as f64));
        let what = format!(
            "{cups}; {}; {count}; {moved:.2}, {events:.2}",
            clocks.instants
        );
        print_line(taken, taken.map(|ns| ns / 1e3), 1, &what);
    }
}

/// How an instant's time grows with n, and with how many integrators it moves.
fn print_growth() {
    println!(
        "\nNanoseconds of an instant that has one event, over {INSTANTS} instants, budget 1,024"
    );
    let columns = [
        "n", "moved", "lazy", "by hand", "ratio", "eager", "by hand", "ratio",
    ];
    println!("{}", columns.map(|column| format!("{column:>10}")).concat());
    for (n, moved) in groups::SIZES {
        let start = Start::of_state(groups::state(n, moved));
        let calls = Calls {
            budget: LARGEST_BUDGET,
            count: (INSTANTS / LARGEST_BUDGET) as usize,
        };
        // Also that the eager engines move n in each.
        let end = start.agreed_end(calls);
        let clocks = &end.state.run.clocks;
        assert_eq!((end.status, clocks.instants), (PAUSED, INSTANTS));
        assert_eq!(clocks.updates, moved as u64 * INSTANTS);
        assert_eq!(end.events_count() as u64, INSTANTS);
        let [lazy, lazy_by_hand, eager, eager_by_hand] = times(&[
            repeated(|| start.proved(Engine::Lazy, calls, &mut |_| ())),
            repeated(|| start.called(Engine::Lazy, calls, &mut |_| ())),
            repeated(|| start.proved(Engine::Eager, calls, &mut |_| ())),
            repeated(|| start.called(Engine::Eager, calls, &mut |_| ())),
        ])
        .map(|times| times.best / INSTANTS as f64);
        print!("{n:>10}{moved:>10}");
        print!(
            "{lazy:>10.1}{lazy_by_hand:>10.1}{:>10.2}",
            lazy / lazy_by_hand
        );
        println!(
            "{eager:>10.1}{eager_by_hand:>10.1}{:>10.2}",
            eager / eager_by_hand
        );
    }
}

fn start_of(plan: &Plan) -> Start {
    assert_eq!(rules::check(plan), Ok(()));
    Start::of(plan)
}

/// The best times of these calls in ns, by side.
fn timed(start: &Start, calls: Calls) -> [f64; 5] {
    let sides: [Repeated; 5] = [
        repeated(|| start.proved(Engine::Lazy, calls, &mut |_| ())),
        repeated(|| start.proved(Engine::Eager, calls, &mut |_| ())),
        repeated(|| start.called(Engine::Lazy, calls, &mut |_| ())),
        repeated(|| start.kept(calls, &mut |_| ())),
        repeated(|| start.readable(calls, &mut |_| ())),
    ];
    times(&sides).map(|times| times.best)
}

fn print_head(what: &str) {
    let ratios = format!("{:>8}{:>8}", "/called", "/kept");
    let sides = SIDES.map(|side| format!("{side:>10}")).concat();
    println!("{ratios}{sides}    {what}");
}

/// Both ratios of the times, then the figures that are shown of them.
fn print_line(taken: [f64; 5], shown: [f64; 5], decimals: usize, what: &str) {
    let [lazy, _, called, kept, _] = taken;
    let ratios = [lazy / called, lazy / kept];
    let ratios = ratios.map(|ratio| format!("{ratio:>8.2}")).concat();
    let shown = shown
        .map(|figure| format!("{figure:>10.decimals$}"))
        .concat();
    println!("{ratios}{shown}    {what}");
}
