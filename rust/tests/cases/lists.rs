//! Lists of run calls, chosen so that they take instants by both engines and end in every way.

use super::called_list::{short_list, CalledList};
use super::list_theorems::ListTheorems;
use super::{times, SEEDS};
use crate::common::{loaded, rng_of};
use crate::prover::Declaration;
use cup_check::compare::counts::STATUSES;
use cup_check::engine::Engine;
use cup_check::file::encode;
use cup_check::generate::Family;
use cup_check::limits::{FINISHED, PAUSED, RANGE, REFUSED_BUDGET, REFUSED_RUN_BUFFER};
use cup_check::met::Met;
use cup_check::plain::{Observer, Plain, TakenInstant};
use cup_check::plan::Plan;

/// The lists to look for: a family of plans, and the status at the end.
const WANTED: [(Family, usize); 8] = [
    (Family::Tiny, PAUSED),
    (Family::Tiny, FINISHED),
    (Family::Together, PAUSED),
    (Family::Bound, PAUSED),
    (Family::Bound, RANGE),
    (Family::Range, RANGE),
    (Family::Slow, PAUSED),
    (Family::Commanded, PAUSED),
];

/// How many lists of each, and the fewest instants of a list.
const LISTS: usize = 2;
const LEAST_INSTANTS: u64 = 7;

/// The longest file of a plan that the prover works out in a few seconds.
const LONGEST_LISTED_FILE: usize = 260;

/// What has to be met.
pub fn required() -> Met {
    let mut met = Met::default();
    met.require("lists", WANTED.len() as u64);
    met.require_each(Engine::BOTH.map(instants_of), 20);
    met.require("instants", 60);
    met.require("lists with instants of both engines", 1);
    met.require("lazy instants that move who is not due", 1);
    met.require("lazy instants that leave some where they are", 1);
    met.require("due and commanded", 1);
    met.require_each(["decline 11", "decline 12"], 1);
    met.require_each(STATUSES, 1);
    met
}

fn count_list(met: &mut Met, plan: &Plan, called: &CalledList) {
    let observer = Observer::of(plan);
    let mut machine = Plain::start(plan);
    let before = met.clone();
    for (call, fed) in called.list.iter().zip(called.fed()) {
        machine.run_observed(u128::from(fed), |taken| {
            let lazily_moved = observer.moved(Engine::Lazy, taken).len();
            count_instant(met, call.engine, taken, lazily_moved, plan);
        });
    }
    for (ran, _) in &called.answers {
        met.count_if(ran.number == REFUSED_BUDGET, "decline 11");
        met.count_if(ran.number == REFUSED_RUN_BUFFER, "decline 12");
    }
    let took_instants = |engine| met.of(instants_of(engine)) > before.of(instants_of(engine));
    let both = Engine::BOTH.into_iter().all(took_instants);
    met.count_if(both, "lists with instants of both engines");
    met.count("lists");
    met.count(STATUSES[machine.status().number()]);
}

/// The count of an engine's instants.
fn instants_of(engine: Engine) -> &'static str {
    match engine {
        Engine::Lazy => "lazy instants",
        Engine::Eager => "eager instants",
    }
}

/// Counts an instant, of whose integrators the lazy engine moves `moved`.
fn count_instant(met: &mut Met, engine: Engine, taken: &TakenInstant, moved: usize, plan: &Plan) {
    let (due, all) = (taken.due.len(), plan.integrators.len());
    met.count("instants");
    met.count_if(due > 0 && !taken.commanded.is_empty(), "due and commanded");
    met.count(instants_of(engine));
    if engine == Engine::Lazy {
        met.count_if(moved > due, "lazy instants that move who is not due");
        met.count_if(moved < all, "lazy instants that leave some where they are");
    }
}

/// The declarations of every list that is wanted.
pub fn declarations(met: &mut Met) -> Vec<Declaration> {
    let mut all = Vec::new();
    for wanted in WANTED {
        for (name, plan, called) in lists_of(wanted).take(LISTS * times()) {
            count_list(met, &plan, &called);
            all.extend(ListTheorems::new(name, &plan, &called).declarations());
        }
    }
    all
}

/// The declarations of one list, and after them a wrong theorem about it.
pub fn declarations_with_a_wrong_one(wrong: &str) -> Vec<Declaration> {
    let mut lists = lists_of(WANTED[0]);
    let (name, plan, called) = lists.next().expect("a list that is wanted");
    let theorems = ListTheorems::new(name, &plan, &called);
    [theorems.declarations(), vec![theorems.wrong(wrong)]].concat()
}

/// The lists of a wanted sort, with names and plans.
fn lists_of((family, status): (Family, usize)) -> impl Iterator<Item = (String, Plan, CalledList)> {
    SEEDS.filter_map(move |seed| {
        let (plan, called) = list_by(seed, family, status)?;
        Some((format!("{family:?}-{seed}"), plan, called))
    })
}

/// The plan and the list of a seed, if they are wanted.
fn list_by(seed: u64, family: Family, status: usize) -> Option<(Plan, CalledList)> {
    let mut rng = rng_of(family, seed);
    let plan = family.plan(&mut rng);
    if encode(&plan).len() > LONGEST_LISTED_FILE {
        return None;
    }
    let list = short_list(&mut rng, &plan);
    let called = CalledList::of(&loaded(&plan), list);
    let (last, _) = called.answers.last()?;
    let enough = called.end().run.clocks.instants >= LEAST_INSTANTS && last.status == status;
    enough.then_some((plan, called))
}
