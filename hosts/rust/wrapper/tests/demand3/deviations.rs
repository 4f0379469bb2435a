//! The deviation, which no list shows: by it the same words, tables and limit can have other accept bits. So the second half of the
//! demand asks for it to be the same, and the first half does not.

use super::steps::{self, Call, Given, Opening, Step};
use super::{at_deviations, pairs_of_deviations};
use crate::calls;
use crate::comparison::Comparison;
use crate::coverage::Coverage;
use crate::model::draw::{self, Attempt};
use crate::model::{exponential_at, Session};
use crate::random::Random;
use crate::run::{self, DEFAULT_SEED};

/// Base samples and the 8 bits below them. The last has an e(N) of 1 at deviation 107.
const SIZES: [(u64, u64); 5] = [(0, 1), (0, 255), (1, 1), (3, 128), (8, 231)];

/// The same draw from openings of two deviations: the read lists are equal exactly where all accept bits are.
pub fn the_deviation_can_decide(comparison: &Comparison) {
    draws_by_hand_differ(comparison);
    let pairs: Vec<[u64; 2]> = pairs_of_deviations().collect();
    let mut coverage = Coverage::default();
    for seed in run::seeds(20) {
        let mut random = Random::new(seed);
        let origin = format!("BLISS_SEED={seed}");
        let degree = calls::degree(&mut random);
        let deviations = random.pick(&pairs);
        let deviation = random.pick(&deviations);
        let call = calls::draw::right_at(&mut random, degree, deviation);
        let [bits, other_bits] = deviations.map(|deviation| bits_at(&call, deviation));
        let [given, other] = deviations.map(|deviation| draw_at(&mut random, &origin, &call, deviation));
        let equal = bits == other_bits;
        assert_eq!(given.entries == other.entries, equal, "{origin}: equal read lists, or equal bits, and not both");
        comparison.count_pair();
        coverage.count(at_deviations(if equal { "equal bits" } else { "other bits" }, deviations), 1);
    }
    coverage.print("demand 3, deviations");
    for bits in ["equal bits", "other bits"] {
        coverage.require(pairs.iter().map(|&pair| at_deviations(bits, pair)));
    }
}

/// The accept bits of a draw at a deviation, by the model.
fn bits_at(call: &draw::Call, deviation: u64) -> Vec<bool> {
    let session = Session { deviation, ..call.session };
    draw::draw(&draw::Call { session, ..call.clone() }).attempts.iter().map(Attempt::accepted).collect()
}

/// What the archive gives for a draw from an opening of this deviation.
fn draw_at(random: &mut Random, origin: &str, call: &draw::Call, deviation: u64) -> Given {
    let opening = Opening { degree: call.session.degree, deviation };
    let step = Step { call: Call::Draw(call.clone()), refused: false };
    steps::run(random, origin, opening, &[step]).remove(0)
}

/// Draws whose attempts are all one, with a word 3 beside e(N) of the lesser deviation, and of the greater one: between the two it
/// is rejected by the one, and accepted by the other.
fn draws_by_hand_differ(comparison: &Comparison) {
    let mut random = Random::new(DEFAULT_SEED);
    for (n, (x, b)) in [4, 512].into_iter().flat_map(|n| SIZES.map(|size| (n, size))) {
        for deviations in pairs_of_deviations() {
            let [lesser, greater] = deviations.map(|deviation| exponential_at(deviation, b * (b + 512 * x)));
            let edges =
                [(lesser - 1, [true, true]), (lesser, [false, true]), (greater - 1, [false, true]), (greater, [false, false])];
            for (word_3, bits) in edges {
                let origin = format!("n = {n}, x = {x}, b = {b}, word 3 = {word_3}, deviations {deviations:?}");
                let words = calls::draw::known_words(x, b, word_3).repeat(2 * n);
                let call = calls::draw::with_words(n, deviations[0], words);
                let given = deviations.map(|deviation| draw_at(&mut random, &origin, &call, deviation));
                for (given, bit) in given.iter().zip(bits) {
                    let sample = if bit { 256 * x + b } else { 0 };
                    assert_eq!(given.seen.y, vec![sample as i32; 2 * n], "{origin}");
                }
                assert_eq!(given[0].entries == given[1].entries, bits[0] == bits[1], "{origin}");
                comparison.count_pair();
            }
        }
    }
}
