//! The cases of one list of run calls.

use super::called_list::CalledList;
use crate::common::{MARK, SIMULATOR};
use crate::prover::antt::{
    buffer, bytes, bytes_case, call, calls, case, field, int_case, nat_case, plain, state, BYTES,
    CALLS, PLAIN, PLAN, RUNNING, STATE,
};
use crate::prover::Declaration;
use cup_check::calls::Simulator;
use cup_check::file::encode;
use cup_check::limits::{ACCEPTED, SECTIONS};
use cup_check::plain::Plain;
use cup_check::plan::Plan;
use cup_check::raw::RawState;

/// A list whose theorems speak of literals by names of their own, so that what one theorem shows is
/// not computed again by the next.
pub struct ListTheorems<'a> {
    name: String,
    plan: &'a Plan,
    called: &'a CalledList,
    /// The plain machine fed the accepted budgets.
    machine: Plain<'a>,
}

impl<'a> ListTheorems<'a> {
    pub fn new(name: String, plan: &'a Plan, called: &'a CalledList) -> ListTheorems<'a> {
        let mut machine = Plain::start(plan);
        machine.run(u128::from(called.sum()));
        ListTheorems {
            name,
            plan,
            called,
            machine,
        }
    }

    /// The literals, and the theorems about them.
    pub fn declarations(&self) -> Vec<Declaration> {
        let theorem = |part: &str, cases| Declaration::Theorem {
            name: self.named(part),
            cases,
        };
        let mut all = self.literals();
        all.extend([
            theorem("reads", self.file_cases()),
            theorem("runs", self.run_cases()),
            theorem("plainly", self.plain_cases()),
            theorem("answers", self.answer_cases()),
            theorem("positions", self.position_cases()),
            theorem("writes", self.write_cases()),
        ]);
        all
    }

    /// A theorem with one update more than there were.
    pub fn wrong(&self, name: &str) -> Declaration {
        Declaration::Theorem {
            name: name.to_string(),
            cases: vec![self.growth_case(self.called.end().run.clocks.updates + 1)],
        }
    }

    fn named(&self, part: &str) -> String {
        format!("{part}-{}", self.name)
    }

    fn literals(&self) -> Vec<Declaration> {
        let literal = |part: &str, kind, term| Declaration::Literal {
            name: self.named(part),
            kind,
            term,
        };
        let (called, before_last) = (self.called, self.called.list.len() - 1);
        vec![
            literal("file", BYTES, bytes(&encode(self.plan))),
            literal("start", STATE, state(called.start())),
            literal("calls", CALLS, calls(&called.list)),
            literal("before", STATE, state(&called.states[before_last])),
            literal("end", STATE, state(called.end())),
            literal("last", PLAIN, plain(&self.machine)),
        ]
    }

    /// The plan decoded, started and encoded, and its sections.
    fn file_cases(&self) -> Vec<String> {
        let (file, start) = (self.named("file"), self.named("start"));
        let load = format!("load_of {file}");
        let mut cases = vec![
            nat_case(&field(&load, "number"), ACCEPTED as u64),
            case(PLAN, &format!("plan_in {file}"), &format!("{start}.plan")),
            case(RUNNING, &field(&load, "state.run"), &format!("{start}.run")),
            case(BYTES, &format!("encode {start}.plan"), &file),
        ];
        let whole = encode(self.plan);
        for number in 0..=SECTIONS {
            let section = SIMULATOR.section(&whole, number);
            cases.push(bytes_case(&format!("section_of {file} {number}"), section));
        }
        cases
    }

    /// The list from the start, whole and cut in two.
    fn run_cases(&self) -> Vec<String> {
        let (start, list) = (self.named("start"), self.named("calls"));
        let end = format!("{}.run", self.named("end"));
        let (sum, joined) = (self.called.sum(), self.called.joined());
        let after = format!("after_calls {start} {list}");
        let mut cases = vec![
            nat_case(&format!("budget_sum {start} {list}"), sum),
            case(RUNNING, &field(&after, "run"), &end),
            bytes_case(&format!("joined_bytes {start} {list}"), &joined),
        ];
        for instant in [1, sum / 2] {
            cases.extend(self.cut_cases(instant));
        }
        cases
    }

    /// The list up to an instant, and the rest of it from there.
    fn cut_cases(&self, instant: u64) -> [String; 2] {
        let (start, list) = (self.named("start"), self.named("calls"));
        let [front, back] = self.called.cut_at(instant);
        let front = CalledList::of(self.called.start(), front);
        assert_eq!(CalledList::of(front.end(), back).end(), self.called.end());
        let middle = state(front.end());
        let cut = format!("after_calls {start} (cut_at {start} {list} {instant})");
        let rest = format!("after_calls {middle} (rest_at {start} {list} {instant})");
        [
            case(STATE, &cut, &middle),
            case(STATE, &rest, &self.named("end")),
        ]
    }

    /// The plain machine fed the sum, the status by it and by the end state, and the updates that the
    /// engines of the list make.
    fn plain_cases(&self) -> Vec<String> {
        let (last, end) = (self.named("last"), format!("{}.run", self.named("end")));
        let p = format!("{}.plan", self.named("start"));
        let sum = self.called.sum();
        let (plain, read) = (
            format!("plain_status {p} {last}"),
            format!("status_of {p} {end}"),
        );
        let status = self.machine.status();
        let (number, integrator) = (status.number() as u64, status.integrator() as u64);
        vec![
            case(PLAIN, &format!("plain_after {p} {sum}"), &last),
            bytes_case(
                &format!("plain_events {p} {sum}"),
                &self.machine.event_bytes(),
            ),
            nat_case(&format!("status_number ({plain})"), number),
            nat_case(&format!("status_integrator ({plain})"), integrator),
            nat_case(&format!("status_number ({read})"), number),
            nat_case(&format!("status_integrator ({read})"), integrator),
            self.growth_case(self.called.end().run.clocks.updates),
            nat_case(&format!("moved_now {p} {end}"), self.moved_last()),
        ]
    }

    /// The growth of updates over all instants, each by the engine of its call.
    fn growth_case(&self, updates: u64) -> String {
        let (start, list) = (self.named("start"), self.named("calls"));
        let instants = self.machine.instants;
        let engines = format!("(engine_at {start} {list})");
        let computed = format!("growth_up_to {start}.plan {engines} {instants}");
        nat_case(&computed, updates)
    }

    /// "The number of integrators with l = c."
    fn moved_last(&self) -> u64 {
        let RawState { plan, run } = self.called.end();
        let used = run.l[..plan.counts.n].iter();
        used.filter(|&&l| l == run.clocks.clock).count() as u64
    }

    /// What each call answers that is made from the state before the last call: the last, and the
    /// declined one before it, which has left the state as it was.
    fn answer_cases(&self) -> Vec<String> {
        let CalledList {
            list,
            states,
            answers,
        } = self.called;
        let same_state = |&number: &usize| states[number] == states[list.len() - 1];
        let numbers = (0..list.len()).filter(same_state);
        let answered = |number: usize| {
            let (ran, buffer) = &answers[number];
            let made = format!("{} {}", self.named("before"), call(&list[number]));
            let answer = format!("answer_of {made}");
            let figure = |name, value| nat_case(&field(&answer, name), value);
            [
                figure("number", ran.number as u64),
                figure("status", ran.status as u64),
                figure("integrator", ran.integrator as u64),
                figure("written", ran.written as u64),
                bytes_case(&format!("buffer_of {made}"), buffer),
            ]
        };
        numbers.flat_map(answered).collect()
    }

    /// The position call for every integrator, and for the number after them.
    fn position_cases(&self) -> Vec<String> {
        let end = self.called.end();
        let positioned = |i| {
            let answer = SIMULATOR.position(end, i);
            let computed = format!("positioned_of {} {i}", self.named("end"));
            [
                nat_case(&field(&computed, "number"), answer.number as u64),
                int_case(&field(&computed, "value"), answer.value),
            ]
        };
        (0..=end.plan.counts.n).flat_map(positioned).collect()
    }

    /// The plan writer with a buffer of the file's length, and with one that is a byte too short.
    fn write_cases(&self) -> Vec<String> {
        let length = encode(self.plan).len();
        let written = |length: usize| {
            let mut bytes = vec![MARK; length];
            let answer = SIMULATOR.write(self.called.end(), &mut bytes);
            let made = format!("{} {}", self.named("end"), buffer(length));
            let writes = format!("write_of {made}");
            [
                nat_case(&field(&writes, "number"), answer.number as u64),
                nat_case(&field(&writes, "length"), answer.length as u64),
                bytes_case(&format!("buffer_of_write {made}"), &bytes),
            ]
        };
        [length, length - 1].into_iter().flat_map(written).collect()
    }
}
