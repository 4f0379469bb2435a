//! Tables in the order that document 01 has, and document 02 changed: each threshold a high word, and then its low word.
//! Reordered, they draw as they drew before; lent as they are, they are tables of the new order, and refused or served as such.
//! No other part of the comparison knows the old order.

use std::array;

use crate::calls;
use crate::comparison::Comparison;
use crate::coverage::{at_every_degree, at_every_deviation, refused, Coverage, DRAW_REFUSALS};
use crate::model::draw::{self, Call};
use crate::random::Random;
use crate::run;

/// Document 01's order.
fn thresholds(cdt: &[u64]) -> [u128; 10] {
    array::from_fn(|i| (u128::from(cdt[2 * i]) << 62) + u128::from(cdt[2 * i + 1]))
}

/// A table of document 01's order with its high words first.
fn reordered(cdt: &[u64]) -> Vec<u64> {
    let (high, low) = (cdt.iter().step_by(2), cdt.iter().skip(1).step_by(2));
    high.chain(low).copied().collect()
}

/// The table that has this one as its reordering.
fn before(cdt: &[u64]) -> Vec<u64> {
    let (high, low) = cdt.split_at(10);
    high.iter().zip(low).flat_map(|(&high, &low)| [high, low]).collect()
}

pub fn reordered_tables_draw_as_before(comparison: &Comparison) {
    let mut coverage = Coverage::default();
    for seed in run::seeds(2) {
        let old = any(&mut Random::new(seed));
        let new = Call { cdt: reordered(&old.cdt), ..old.clone() };
        let by_new = comparison.draw_as(&format!("BLISS_SEED={seed}, reordered"), &new, draw::draw_in(thresholds, &old));
        let by_old = comparison.draw(&format!("BLISS_SEED={seed}, not reordered"), &old);
        comparison.count_reordered();
        coverage.count_draw(&new, &by_new);
        coverage.count_orders((&new, &by_new), (&old, &by_old));
    }
    coverage.print("draws by reordered tables");
    coverage.require_what_is_counted();
    coverage.require(DRAW_REFUSALS.map(refused));
    coverage.require(at_every_degree(&["full", "spent"]));
    coverage.require(at_every_deviation(&["full", "spent"]));
}

/// A draw with a table of document 01's order, which may be wrong, and words at the edges of its thresholds.
fn any(random: &mut Random) -> Call {
    let degree = calls::degree(random);
    let mut call = calls::draw::right(random, degree);
    call.cdt = table(random);
    let words = calls::draw::words(random, call.session.deviation, call.limit, &thresholds(&call.cdt));
    call.words[..words.len()].copy_from_slice(&words);
    if random.one_in(8) {
        let refusal = random.pick(&[1, 2, 4, 5, 7, 8, 16]);
        calls::draw::spoil(random, &mut call, refusal);
    }
    call
}

/// A table that is right in document 01's order, in document 02's, in both or in neither.
fn table(random: &mut Random) -> Vec<u64> {
    let mut table = calls::draw::cdt(random);
    if random.one_in(4) {
        calls::draw::spoil_cdt(random, &mut table);
    }
    match random.below(4) {
        0 => table,
        1 => ascending(random),
        _ => before(&table),
    }
}

/// Words that ascend, and so are right in both orders; or do so but for one.
fn ascending(random: &mut Random) -> Vec<u64> {
    let bound = random.pick(&[1, 2, 20, 1 << 62]);
    let mut table: Vec<u64> = (0..20).map(|_| random.word() % bound).collect();
    table.sort_unstable();
    if random.one_in(2) {
        table[random.below(20)] = random.word() % bound;
    }
    table
}
