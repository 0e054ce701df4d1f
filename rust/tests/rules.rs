//! The rules of the engines against those of the plain machine, number by number.

use cup_check::engine::rules;
use cup_check::generate::Rng;
use cup_check::limits::{GRAINS_PER_ML, M};
use cup_check::plain::{due, values};
use cup_check::plan::{Node, Plan};

/// Numbers of every size, and the ends of the 64-bit range.
fn wild(rng: &mut Rng) -> i64 {
    match rng.below(6) {
        0 => rng.pick(&[i64::MIN, i64::MIN + 1, -1, 0, 1, i64::MAX]),
        1 => rng.within(-M - 2, M + 2),
        2 => rng.within(-20, 20),
        _ => (rng.bits() as i64) >> rng.below(63),
    }
}

#[test]
fn due_by_division_is_due_by_search_for_every_position() {
    let (mut past_a_level, mut beyond_i64) = (0, 0);
    for seed in 0..200_000 {
        let mut rng = Rng::new(seed);
        let [x, q, slope] = [(); 3].map(|()| wild(&mut rng));
        let quantum = wild(&mut rng).saturating_abs().max(1);
        let searched = due::ticks_to_level(x, q, quantum, slope);
        let wide = [x, q, quantum, slope].map(i128::from);
        let divided = rules::ticks_to_level(wide[0], wide[1], wide[2], wide[3]);
        assert_eq!(divided, searched, "x {x} q {q} D {quantum} s {slope}");
        past_a_level += usize::from((wide[0] - wide[1]).abs() >= wide[2]);
        beyond_i64 += usize::from(searched > Some(i128::from(i64::MAX)));
    }
    assert!(past_a_level >= 20_000 && beyond_i64 >= 500);
}

#[test]
fn due_within_the_levels_is_at_most_the_documents_distances() {
    for seed in 0..50_000 {
        let mut rng = Rng::new(seed);
        let quantum = rng.pick(&[1, 2, M - 1, M, 1_000]);
        let q = rng.within(-M, M);
        let x = q + rng.within(1 - quantum, quantum - 1);
        let slope = rng.pick(&[1, -1, 2, -3, 1 << 43, -(1 << 43)]);
        let ticks = due::ticks_to_level(x, q, quantum, slope).expect("the slope is not 0");
        assert!((1..=(1 << 31) - 1).contains(&ticks));
    }
}

#[test]
fn slopes_agree_for_every_sum() {
    for seed in 0..50_000 {
        let mut rng = Rng::new(seed);
        let (value, coefficient) = (rng.within(-M, M), rng.within(-(1 << 24), 1 << 24));
        let plan = Plan::new(1).integrator(0, 1).link(0, 0, coefficient);
        let plain = values::slope(&plan, 0, &[value]);
        let sum = i128::from(value) * i128::from(coefficient);
        assert_eq!(rules::slope(sum), i128::from(plain));
        assert_eq!(plain, (value * coefficient).div_euclid(GRAINS_PER_ML));
    }
}

#[test]
fn node_values_agree_for_every_kind() {
    let ends = [
        -M,
        1 - M,
        -GRAINS_PER_ML,
        -1,
        0,
        1,
        GRAINS_PER_ML - 1,
        GRAINS_PER_ML,
        M - 1,
        M,
    ];
    for seed in 0..50_000 {
        let mut rng = Rng::new(seed);
        let any = |rng: &mut Rng| match rng.once_in(2) {
            true => rng.pick(&ends),
            false => rng.within(-M, M),
        };
        let (a, b) = (any(&mut rng), any(&mut rng));
        let (one, other) = (any(&mut rng), any(&mut rng));
        for kind in 0..4 {
            let (low, high) = if kind == 2 {
                (one.min(other), one.max(other))
            } else {
                (one, other)
            };
            let (a_at, b_at) = (0, usize::from(kind != 2));
            let node = Node {
                kind,
                a: a_at,
                b: b_at,
                low,
                high,
            };
            let mut plan = Plan::new(1).integrator(0, 1).integrator(0, 1);
            plan.nodes.push(node);
            let values = values::of_all_sources(&plan, &[a, b], &[]);
            let engine = rules::node_value(&node, i128::from(a), i128::from(b));
            assert_eq!(i128::from(values[2]), engine, "{node:?} a {a} b {b}");
            assert!(engine.abs() <= i128::from(M));
        }
    }
}
