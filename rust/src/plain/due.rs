//! The Due rule, found by searching for the number that its words describe.

/// "The least T ≥ 1 with x + s × T ≥ q + D" for s > 0, with "≤ q − D" for s < 0, and nothing for
/// s = 0. The level is kept once it is reached, since x + s × T goes one way only; so doubling
/// finds a T that reaches it, and halving the span below that finds the least.
///
/// Any x, q, D and s of 64 bits will do: i128 holds twice the largest distance between them.
pub fn ticks_to_level(x: i64, q: i64, quantum: i64, slope: i64) -> Option<i128> {
    let (x, q, quantum, slope) = (
        i128::from(x),
        i128::from(q),
        i128::from(quantum),
        i128::from(slope),
    );
    if slope == 0 {
        return None;
    }
    let reached = |ticks: i128| {
        let position = x + slope * ticks;
        if slope > 0 {
            position >= q + quantum
        } else {
            position <= q - quantum
        }
    };
    let mut enough = 1;
    while !reached(enough) {
        enough *= 2;
    }
    Some(least(1, enough, reached))
}

/// The least number in `low..=high` that is `reached`, given that `high` is and that everything
/// above such a number is as well.
fn least(mut low: i128, mut high: i128, reached: impl Fn(i128) -> bool) -> i128 {
    while low < high {
        let middle = low + (high - low) / 2;
        if reached(middle) {
            high = middle;
        } else {
            low = middle + 1;
        }
    }
    low
}

#[cfg(test)]
mod tests {
    use super::*;

    /// Counts upwards from 1, with no thought at all.
    fn counted(x: i64, q: i64, quantum: i64, slope: i64) -> Option<i128> {
        (1..=1_000).find(|&ticks| {
            let position = i128::from(x) + i128::from(slope) * ticks;
            (slope > 0 && position >= i128::from(q + quantum))
                || (slope < 0 && position <= i128::from(q - quantum))
        })
    }

    #[test]
    fn the_search_finds_what_counting_finds() {
        for x in -12..=12 {
            for q in -3..=3 {
                for quantum in 1..=6 {
                    for slope in -7..=7 {
                        assert_eq!(
                            ticks_to_level(x, q, quantum, slope),
                            counted(x, q, quantum, slope),
                            "x {x} q {q} D {quantum} s {slope}"
                        );
                    }
                }
            }
        }
    }
}
