//! The promise of a key check: for a key that passes, no challenge of just that length has an A over the final sum, which is at
//! most 46,225. So no response is rejected for A.

use std::fmt::Display;

use crate::calls;
use crate::comparison::Comparison;
use crate::coverage::{at_degree, Coverage};
use crate::model::key_check::{Call, Checked, Sums};
use crate::model::respond::{product, PRODUCT_LIMIT};
use crate::random::Random;

/// Responses with keys that pass, and what they came across.
pub struct Promise<'a> {
    comparison: &'a Comparison,
    pub coverage: Coverage,
}

impl Promise<'_> {
    pub fn new(comparison: &Comparison) -> Promise<'_> {
        Promise { comparison, coverage: Coverage::default() }
    }

    /// Responds to a random challenge, to the places of a row's largest entries, and to the worst that is found from there.
    pub fn respond(&mut self, random: &mut Random, origin: &dyn Display, call: &Call, checked: &Checked) {
        let sums = checked.sums.as_ref().expect("a key that passes has sums");
        let any = calls::respond::challenge_of(random, call.n, call.length);
        let largest = places_of_largest_entries(sums, call.length);
        let worst = worst_from(&sums.table, largest.clone());
        self.coverage.see("a worse challenge is found", worst != largest);
        for challenge in [any, ascending(largest), ascending(worst)] {
            self.hold(random, origin, call, checked, challenge);
        }
    }

    /// Looks at every challenge of the length, and responds to the worst.
    pub fn respond_to_worst(&mut self, random: &mut Random, origin: &dyn Display, call: &Call, checked: &Checked) {
        let a = |challenge: &Vec<u32>| -> i128 { product(&call.key, challenge).iter().map(|value| value * value).sum() };
        let worst = every_challenge(call.n, call.length).max_by_key(a).expect("a challenge of the length");
        self.hold(random, origin, call, checked, worst);
        self.coverage.count(every_challenge_of(call.length, call.n), 1);
    }

    fn hold(&mut self, random: &mut Random, origin: &dyn Display, call: &Call, checked: &Checked, challenge: Vec<u32>) {
        let sum = u128::from(checked.answer.sum);
        let origin = format!("{origin}, challenge {challenge:?}");
        let respond = calls::respond::with_key(random, challenge, call.key.clone());
        let responded = self.comparison.respond(&origin, &respond);
        let response = responded.response.expect("a right call is served");
        let a = response.product_squares;
        assert!(a <= sum && sum <= PRODUCT_LIMIT, "{origin}: A is {a}, and the final sum {sum}");
        let [_, others @ ..] = response.tests();
        assert_eq!(responded.answer.bit, others == [true; 4], "{origin}: the bit is not that of the tests beside A's");
        self.coverage.count_promise(call.n, sum, &response);
    }
}

pub fn every_challenge_of(length: usize, n: usize) -> String {
    at_degree(&format!("every challenge of length {length:2}"), n)
}

fn every_challenge(n: usize, length: usize) -> impl Iterator<Item = Vec<u32>> {
    let sets = (0..1u32 << n).filter(move |set| set.count_ones() as usize == length);
    sets.map(move |set| (0..n as u32).filter(|position| set >> position & 1 == 1).collect())
}

/// The places of the entries that make up the largest row sum.
fn places_of_largest_entries(sums: &Sums, length: usize) -> Vec<usize> {
    let n = sums.table.len();
    let row = (0..n).max_by_key(|&row| sums.rows[row]).expect("a table has rows");
    let mut places: Vec<usize> = (0..n).collect();
    places.sort_by_key(|&place| -sums.table[row][place]);
    places.truncate(length);
    places
}

/// Exchanges one position for another, the best first, as long as A grows. A is the sum of T over all pairs of positions.
fn worst_from(table: &[Vec<i64>], mut challenge: Vec<usize>) -> Vec<usize> {
    let n = table.len();
    loop {
        let beside: Vec<i64> = (0..n).map(|place| challenge.iter().map(|&position| table[place][position]).sum()).collect();
        // Half of what A gains where `place` comes for `position`: all entries of the diagonal are equal.
        let gain = |position: usize, place: usize| {
            beside[place] - table[place][position] - (beside[position] - table[position][position])
        };
        let others: Vec<usize> = (0..n).filter(|place| !challenge.contains(place)).collect();
        let exchanges = (0..challenge.len()).flat_map(|at| others.iter().map(move |&place| (at, place)));
        match exchanges.max_by_key(|&(at, place)| gain(challenge[at], place)) {
            Some((at, place)) if gain(challenge[at], place) > 0 => challenge[at] = place,
            _ => return challenge,
        }
    }
}

fn ascending(places: Vec<usize>) -> Vec<u32> {
    let mut challenge: Vec<u32> = places.into_iter().map(|place| place as u32).collect();
    challenge.sort_unstable();
    challenge
}
