//! Single draws.

use crate::calls::{self, drawn_numbers, DEGREES, DEVIATIONS, FORGED_DEVIATIONS};
use crate::comparison::Comparison;
use crate::coverage::{
    at_every_degree, at_every_deviation, by_every_session, every_refusal, refused, with_every_drawn, Coverage, DRAW_REFUSALS,
};
use crate::model::draw::{list_asked, words_asked, Call};
use crate::model::exponential_at;
use crate::random::Random;
use crate::run::{self, DEFAULT_SEED};

pub fn draws_are_the_models(comparison: &Comparison) {
    let mut coverage = Coverage::default();
    for seed in run::seeds(1) {
        let (call, reasons) = calls::draw::any(&mut Random::new(seed));
        let origin = format!("BLISS_SEED={seed}");
        let drawn = comparison.draw(&origin, &call);
        calls::assert_as_made(&origin, drawn.answer.refusal, &reasons, &DRAW_REFUSALS);
        coverage.count_draw(&call, &drawn);
        coverage.count_reasons(&reasons, &DRAW_REFUSALS);
    }
    coverage.print("draws");
    coverage.require_what_is_counted();
    coverage.require(every_refusal(&DRAW_REFUSALS));
    coverage.require(by_every_session(&DRAW_REFUSALS));
    coverage.require(with_every_drawn(&DRAW_REFUSALS.map(refused)));
    coverage.require(with_every_drawn(&["full", "spent"]));
    coverage.require(at_every_degree(&["full", "spent"]));
    coverage.require(at_every_deviation(&["full", "spent"]));
}

/// Every size at every deviation, with word 3 at the last number that e(N) accepts, and at the first that it does not: e(N) at all N
/// that an attempt has.
pub fn every_size_is_the_models(comparison: &Comparison) {
    for deviation in DEVIATIONS {
        let accepted = |x: u64, name: &str, word_3: fn(u64) -> u64| {
            let e = |b: u64| exponential_at(deviation, b * (b + 512 * x));
            // Odd sizes are negative.
            let words = (0..256).flat_map(|b| calls::draw::known_words(x, b + b % 2 * 256, word_3(e(b))));
            let call = calls::draw::with_words(128, deviation, words.collect());
            comparison.draw(&format!("deviation {deviation}, x = {x}, word 3 at {name}"), &call).answer.accepted
        };
        let at_last: usize = (0..=10).map(|x| accepted(x, "e(N) - 1", |e| e.saturating_sub(1))).sum();
        let at_first: usize = (0..=10).map(|x| accepted(x, "e(N)", |e| e)).sum();
        // At 107 e(N) is 0 for 139 sizes. At each x e(0) accepts every number.
        assert_eq!(at_last, if deviation == 107 { 2816 - 139 } else { 2816 }, "deviation {deviation}");
        assert_eq!(at_first, 11, "deviation {deviation}");
    }
}

/// Each value of each table and each length that is checked, spoilt alone, and each end of what is served.
pub fn each_check_alone_is_the_models(comparison: &Comparison) {
    let mut random = Random::new(DEFAULT_SEED);
    for n in DEGREES {
        let deviation = random.pick(&DEVIATIONS);
        let right = calls::draw::with_limit(&mut random, n, deviation, 2 * n);
        for (name, call) in spoilt_in_one_place(&right) {
            let drawn = comparison.draw(&format!("n = {n}, {name}"), &call);
            assert_ne!(drawn.answer.refusal, 0, "n = {n}, {name} is served");
        }
        for (name, call) in served_at_an_end(&mut random, &right) {
            let drawn = comparison.draw(&format!("n = {n}, {name}"), &call);
            assert_eq!(drawn.answer.refusal, 0, "n = {n}, {name} is refused");
        }
    }
}

fn changed(right: &Call, change: impl Fn(&mut Call)) -> Call {
    let mut call = right.clone();
    change(&mut call);
    call
}

fn served_at_an_end(random: &mut Random, right: &Call) -> Vec<(String, Call)> {
    let n = right.session.degree;
    let mut served = vec![("nothing spoilt".into(), right.clone())];
    let deviation = right.session.deviation;
    served.push((format!("limit {}", 32 * n), calls::draw::with_limit(random, n, deviation, 32 * n)));
    for deviation in DEVIATIONS {
        served.push((format!("deviation {deviation}"), changed(right, |call| call.session.deviation = deviation)));
    }
    for drawn in drawn_numbers() {
        served.push((format!("drawn {drawn}"), changed(right, |call| call.session.drawn = drawn)));
    }
    served.push(("one word more".into(), changed(right, |call| call.words.push(7))));
    served.push(("one entry more".into(), changed(right, |call| call.list.push(7))));
    served.push(("all thresholds at 0".into(), changed(right, |call| call.cdt.fill(0))));
    served.push(("all thresholds at 2^124 - 1".into(), changed(right, |call| call.cdt.fill((1 << 62) - 1))));
    let (equal, rising, falling) = ([7; 10], [0, 1, 2, 3, 4, 5, 6, 7, 8, 9], [9, 8, 7, 6, 5, 4, 3, 2, 1, 0]);
    for (name, high, low) in [
        ("equal high words, and low words that rise", equal, rising),
        ("high words that rise, and equal low words", rising, equal),
        ("high words that rise, and low words that fall", rising, falling),
    ] {
        served.push((name.into(), changed(right, |call| call.cdt = [high, low].concat())));
    }
    served
}

fn spoilt_in_one_place(right: &Call) -> Vec<(String, Call)> {
    let n = right.session.degree;
    let mut spoilt = Vec::new();
    let mut add = |name: String, spoil: &dyn Fn(&mut Call)| spoilt.push((name, changed(right, spoil)));
    for degree in [0, n - 1, n + 1, 2048, n + (1 << 32), n + (1 << 63)] {
        add(format!("degree {degree}"), &|call| call.session.degree = degree);
    }
    for deviation in FORGED_DEVIATIONS {
        add(format!("deviation {deviation}"), &|call| call.session.deviation = deviation);
    }
    for length in [0, 19, 21] {
        add(format!("CDT of {length}"), &|call| call.cdt.resize(length, (1 << 62) - 1));
    }
    for length in [0, 20, 22] {
        add(format!("polynomial table of {length}"), &|call| call.polynomial.resize(length, 0));
    }
    for length in [0, n, 2 * n - 1, 2 * n + 1, 4 * n] {
        add(format!("y of {length}"), &|call| call.y.resize(length, 0));
    }
    for limit in [0, 2 * n - 1, 32 * n + 1, 1 << 62, 1 << 63, usize::MAX] {
        add(format!("limit {limit}"), &|call| call.limit = limit);
    }
    for length in [0, words_asked(right.limit) - 1] {
        add(format!("{length} words"), &|call| call.words.truncate(length));
    }
    for length in [0, list_asked(right.limit) - 1] {
        add(format!("list of {length}"), &|call| call.list.truncate(length));
    }
    add("all slices empty".into(), &|call| *call = calls::draw::with_nothing_lent(call.session, call.limit));
    spoilt.extend(spoilt_in_a_table(right));
    spoilt
}

fn spoilt_in_a_table(right: &Call) -> Vec<(String, Call)> {
    let mut spoilt = Vec::new();
    let mut add = |name: String, spoil: &dyn Fn(&mut Call)| spoilt.push((name, changed(right, spoil)));
    for place in 0..20 {
        add(format!("CDT word {place} at 2^62"), &|call| call.cdt[place] = 1 << 62);
        add(format!("CDT word {place} at 2^64 - 1"), &|call| call.cdt[place] = u64::MAX);
    }
    for i in 1..10 {
        add(format!("equal high words, and low words that fall at threshold {i}"), &|call| {
            call.cdt.fill(7);
            call.cdt[10 + i..].fill(6);
        });
        add(format!("high words that fall at threshold {i}, and low words that rise there"), &|call| {
            call.cdt.fill(7);
            call.cdt[i..10].fill(6);
            call.cdt[10 + i..].fill(8);
        });
    }
    for place in 0..21 {
        add(format!("entry {place} too great"), &|call| call.polynomial[place] += 1);
        add(format!("entry {place} too small"), &|call| call.polynomial[place] -= 1);
        add(format!("entry {place} with its top bit changed"), &|call| call.polynomial[place] ^= 1 << 63);
    }
    spoilt
}
