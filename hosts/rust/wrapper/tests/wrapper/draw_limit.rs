//! The chance that a draw is spent, by the limit of its attempts.

use bliss_box::{draw_limit, sample_count, Deviation};

use crate::DEGREES;

/// The chance that an attempt with the CDT of a deviation is accepted.
fn accepted(deviation: Deviation) -> f64 {
    match deviation {
        Deviation::D107 => 0.495_522,
        Deviation::D215 => 0.677_956,
        Deviation::D250 => 0.709_967,
        Deviation::D271 => 0.726_290,
    }
}

/// The binary logarithm of the chance that a draw is spent: that fewer than `wanted` of `limit` attempts are accepted. The last
/// term of this binomial tail is the largest, so it is the one that the others are measured by.
fn log2_of_spent(deviation: Deviation, limit: usize, wanted: usize) -> f64 {
    let accepted = accepted(deviation);
    let step = |k: usize| (limit - k + 1) as f64 * accepted / (k as f64 * (1.0 - accepted));
    let last = limit as f64 * (1.0 - accepted).log2() + (1..wanted).map(|k| step(k).log2()).sum::<f64>();
    let (_, sum) = (1..wanted).rev().fold((1.0, 1.0), |(term, sum), k| (term / step(k), sum + term / step(k)));
    last + f64::log2(sum)
}

#[test]
fn the_limit_is_all_but_never_spent() {
    for deviation in Deviation::ALL {
        for n in DEGREES {
            let limit = draw_limit(n, deviation);
            assert!((2 * n..=32 * n).contains(&limit), "n = {n}, deviation {deviation}");
            assert!(log2_of_spent(deviation, limit, sample_count(n)) <= -64.0, "n = {n}, deviation {deviation}");
        }
    }
}

/// The tables of docs/HOST-GUIDE.md, which has none in the place of 170 attempts at n = 4: a draw may make 128.
#[test]
fn the_guides_limits_are_the_smallest_of_their_chance() {
    for (chance, deviation, limits) in [
        (-64.0, Deviation::D107, [99, 130, 183, 277, 448, 767, 1370, 2525, 4764]),
        (-64.0, Deviation::D215, [62, 82, 118, 182, 302, 526, 954, 1780, 3391]),
        (-64.0, Deviation::D250, [57, 76, 109, 170, 283, 496, 902, 1687, 3221]),
        (-64.0, Deviation::D271, [55, 73, 105, 165, 274, 481, 877, 1643, 3140]),
        (-128.0, Deviation::D107, [170, 205, 266, 372, 561, 906, 1545, 2753, 5067]),
        (-128.0, Deviation::D215, [104, 127, 168, 240, 369, 609, 1058, 1916, 3571]),
        (-128.0, Deviation::D250, [96, 117, 155, 223, 345, 571, 997, 1811, 3384]),
        (-128.0, Deviation::D271, [92, 113, 149, 214, 333, 553, 968, 1761, 3295]),
    ] {
        for (n, limit) in DEGREES.into_iter().zip(limits) {
            let log2_at = |limit| log2_of_spent(deviation, limit, sample_count(n));
            assert!(log2_at(limit) <= chance, "n = {n}, deviation {deviation}: {limit}");
            assert!(log2_at(limit - 1) > chance, "n = {n}, deviation {deviation}: {}", limit - 1);
        }
    }
}

#[test]
fn the_limit_is_that_of_the_header() {
    for n in DEGREES {
        assert_eq!(Deviation::ALL.map(|deviation| draw_limit(n, deviation)), [6 * n + 88, 4 * n + 56, 4 * n + 56, 4 * n + 56]);
    }
}
