//! What the campaign over listings counts, and how often it has to be met.

use super::{Input, Origin, INPUTS_COMPARED};
use cup_check::limits::{
    FINISHED, HEADER_BYTES, LISTING_BUDGET, LISTING_INPUT, LONGEST_FILE, RANGE, REFUSED_COMMAND,
    REFUSED_SHORT,
};
use cup_check::met::Met;

/// How often each has to be met.
const ENOUGH: u64 = 10;

/// What has to be met beside the numbers and statuses.
const CASES: [&str; 12] = [
    "empty input",
    "shorter than a header",
    "4,492 bytes, accepted",
    "4,493 bytes",
    "more bytes than are read",
    "in pieces, accepted",
    "entry above 0",
    "no instant",
    "fewer than 64 instants",
    "exactly 64 instants",
    "128 or 192 instants",
    "more than 64 instants",
];

/// What has to be met.
pub fn required() -> Met {
    let mut met = Met::default();
    met.require("inputs", INPUTS_COMPARED);
    met.require_each(["lines", "bytes of the longest listing"], 1);
    met.require_each(Origin::ALL.map(|origin| format!("{origin:?}")), ENOUGH);
    let refused = (REFUSED_SHORT..=REFUSED_COMMAND).map(|number| format!("refused {number}"));
    met.require_each(refused, ENOUGH);
    let ended = (FINISHED..=RANGE).map(|status| format!("end {status}"));
    met.require_each(ended, ENOUGH);
    met.require_each(CASES, ENOUGH);
    met
}

/// Counts an input by what the second simulator lists.
pub fn count_input(met: &mut Met, input: &Input, listing: &str) {
    met.count("inputs");
    met.count(format!("{:?}", input.origin));
    met.add("lines", listing.lines().count() as u64);
    met.keep_highest("bytes of the longest listing", listing.len() as u64);
    // "end" or "refused", and a number behind it.
    let last: Vec<&str> = listing.lines().last().unwrap_or("").split(' ').collect();
    met.count(last[..2].join(" "));
    let figure = |place: usize| last[place].parse::<u64>().expect("a number");
    let accepted = last[0] == "end";
    let (length, instants) = (input.bytes.len(), accepted.then(|| figure(3)));
    let has = [
        length == 0,
        (1..HEADER_BYTES).contains(&length),
        length == LONGEST_FILE && accepted,
        length == LISTING_INPUT,
        length > LISTING_INPUT,
        input.pieces > 1 && accepted,
        !accepted && figure(2) > 0,
        instants == Some(0),
        instants.is_some_and(|count| 0 < count && count < LISTING_BUDGET),
        instants == Some(LISTING_BUDGET),
        instants == Some(2 * LISTING_BUDGET) || instants == Some(3 * LISTING_BUDGET),
        instants > Some(LISTING_BUDGET),
    ];
    for (case, has) in CASES.into_iter().zip(has) {
        met.count_if(has, case);
    }
}
