//! What draws came across.

use super::session::with_drawn;
use super::{at_degree, at_deviation, Coverage, TOP_BITS};
use crate::calls::draw::cdt_of;
use crate::calls::DEVIATIONS;
use crate::model::draw::{list_asked, thresholds, words_asked, Attempt, Call, Drawn};
use crate::model::exponential_at;
use crate::run;

/// The refusals of a draw.
pub const REFUSALS: [u32; 8] = [1, 16, 2, 3, 4, 5, 7, 8];

/// The greatest threshold, and the greatest d.
const GREATEST: u128 = (1 << 124) - 1;

/// The edges of word 2, and whether an attempt with it can be rejected: where b is 0, a zero with sign 1 alone is.
const WORD_2_EDGES: [(u64, bool); 7] =
    [(0, false), (255, true), (256, true), (257, true), (511, true), (512, false), (u64::MAX, true)];

/// A side of a threshold, whether d is on it, and whether d then counts the threshold.
type Side = (&'static str, fn(u128, u128) -> bool, bool);

const SIDES: [Side; 3] =
    [("just below", |d, t| d + 1 == t, false), ("at", |d, t| d == t, true), ("just above", |d, t| d == t + 1, true)];

/// The low word of a threshold, or of d.
fn low(t: u128) -> u128 {
    t % (1 << 62)
}

/// The attempts that a draw made, each with its words.
struct Made<'a> {
    attempts: Vec<(&'a [u64], &'a Attempt)>,
}

impl Made<'_> {
    fn count(&self, case: impl Fn(&Attempt, &[u64]) -> bool) -> usize {
        self.attempts.iter().filter(|(words, attempt)| case(attempt, words)).count()
    }
}

impl Attempt {
    /// The attempt that the same words make at another deviation.
    fn at(&self, deviation: u64) -> Attempt {
        Attempt { deviation, e: exponential_at(deviation, self.n).into(), ..*self }
    }
}

impl Coverage {
    /// Counts a draw that was compared.
    pub fn count_draw(&mut self, call: &Call, drawn: &Drawn) {
        if !run::counts_cases() {
            return;
        }
        let refusal = drawn.answer.refusal;
        self.count_call(call.session, refusal);
        self.count_lent("words", call.words.len(), words_asked(call.limit), refusal, 7);
        self.count_lent("list entries", call.list.len(), list_asked(call.limit), refusal, 8);
        if refusal == 3 {
            self.count_wrong_table(&call.cdt);
        }
        if refusal == 0 {
            let thresholds = thresholds(&call.cdt);
            let made = Made { attempts: call.words.chunks(4).zip(&drawn.attempts).collect() };
            self.count_full_or_spent(call, drawn);
            self.count_deviation(call, &made);
            self.count_table(&thresholds);
            self.count_scans(&made, &thresholds);
            self.count_ends(&made, &thresholds);
            self.count_edges_of_attempts(&made);
        }
    }

    /// Counts what refuses a table, where it is one thing alone: a word that is too great, or a threshold that falls.
    fn count_wrong_table(&mut self, cdt: &[u64]) {
        let too_great: Vec<usize> = (0..20).filter(|&place| cdt[place] >= 1 << 62).collect();
        let thresholds = thresholds(cdt);
        let falling: Vec<usize> = (1..10).filter(|&i| thresholds[i] < thresholds[i - 1]).collect();
        for place in 0..20 {
            self.see(format!("refusal 3, word {place:2} alone is too great"), too_great == [place]);
        }
        for (word, places) in [("high", 0..10), ("low", 10..20)] {
            let one = too_great.len() == 1 && places.contains(&too_great[0]);
            self.see(format!("refusal 3, a {word} word of 2^62 alone"), one && cdt[too_great[0]] == 1 << 62);
            self.see(format!("refusal 3, a {word} word is too great, and no threshold falls"), one && falling.is_empty());
        }
        let (high, low) = cdt.split_at(10);
        for i in 1..10 {
            let alone = too_great.is_empty() && falling == [i];
            let case = format!("refusal 3, threshold {i} alone falls");
            self.see(format!("{case}, its low word rises"), alone && high[i] < high[i - 1] && low[i] > low[i - 1]);
            self.see(format!("{case} by its low word"), alone && high[i] == high[i - 1]);
        }
    }

    fn count_full_or_spent(&mut self, call: &Call, drawn: &Drawn) {
        let n = call.session.degree;
        let full = drawn.answer.accepted == 2 * n;
        let outcome = if full { "full" } else { "spent" };
        self.count(at_degree(outcome, n), 1);
        self.count(at_deviation(outcome, call.session.deviation), 1);
        self.count(with_drawn(outcome, call.session.drawn), 1);
        self.see("full on the last attempt", full && drawn.answer.attempts == call.limit);
        self.see("full, limit 2n", full && call.limit == 2 * n);
        self.see("full, limit 32n", full && call.limit == 32 * n);
        self.see("spent, one sample short", drawn.answer.accepted == 2 * n - 1);
        self.see("spent, no sample", drawn.answer.accepted == 0);
        self.see("spent, limit 2n", !full && call.limit == 2 * n);
        self.see("spent, limit 32n", !full && call.limit == 32 * n);
    }

    /// The table beside the deviation, word 3 beside e(N), and bits that tell the deviation from others.
    fn count_deviation(&mut self, call: &Call, made: &Made) {
        let deviation = call.session.deviation;
        let mut count = |case: &str, times: usize| self.count(at_deviation(case, deviation), times);
        let is_table_of = |deviation: u64| call.cdt == cdt_of(deviation);
        let others = || DEVIATIONS.into_iter().filter(|&other| other != deviation);
        count("the table of it", usize::from(is_table_of(deviation)));
        count("the table of another", usize::from(others().any(is_table_of)));
        count("the table of none", usize::from(!DEVIATIONS.into_iter().any(is_table_of)));

        // At N = 0 e(N) is 2^62 by every deviation.
        let telling: Vec<&Attempt> = made.attempts.iter().map(|&(_, a)| a).filter(|a| a.n > 0).collect();
        let attempts = |case: &dyn Fn(&Attempt) -> bool| telling.iter().filter(|a| case(a)).count();
        count("accepted", attempts(&|a| a.accepted()));
        count("rejected", attempts(&|a| !a.accepted()));
        count("word 3 at e(N) - 1", attempts(&|a| a.accepted() && a.tested + 1 == a.e));
        count("word 3 at the cut e(N)", attempts(&|a| a.accepted() && a.tested == a.cut_e()));
        count("word 3 at e(N)", attempts(&|a| a.tested == a.e));
        for other in others() {
            let case = format!("another bit than at {other}");
            let differing: Vec<(&Attempt, Attempt)> =
                telling.iter().map(|&a| (a, a.at(other))).filter(|(a, at_other)| a.accepted() != at_other.accepted()).collect();
            let beside = differing.iter().filter(|(a, at_other)| a.tested == at_other.e || a.tested + 1 == at_other.e);
            count(&case, differing.len());
            count(&format!("{case}, word 3 beside e(N) of that"), beside.count());
        }
        if deviation == 107 {
            // At the others e(N) is above 0 for every size.
            count("e(N) = 1, word 3 at 0", attempts(&|a| a.e == 1 && a.tested == 0 && a.accepted()));
            count("e(N) = 0, word 3 at 0", attempts(&|a| a.e == 0 && a.tested == 0));
        }
    }

    fn count_table(&mut self, thresholds: &[u128]) {
        let pairs = || thresholds.windows(2).map(|pair| (pair[0], pair[1]));
        self.see("equal thresholds", pairs().any(|(a, b)| a == b));
        self.see("ten equal thresholds", pairs().all(|(a, b)| a == b));
        self.see("equal high words, other low words", pairs().any(|(a, b)| a >> 62 == b >> 62 && a < b));
        self.see("ten equal high words, other low words", pairs().all(|(a, b)| a >> 62 == b >> 62 && a < b));
        self.see("ten high words", pairs().all(|(a, b)| a >> 62 < b >> 62));
        self.see("a greater high word, a smaller low word", pairs().any(|(a, b)| a >> 62 < b >> 62 && low(a) > low(b)));
        self.see("threshold at 0", thresholds[0] == 0);
        self.see("ten thresholds at 0", thresholds[9] == 0);
        self.see("threshold at 2^124 - 1", thresholds[9] == GREATEST);
        self.see("ten thresholds at 2^124 - 1", thresholds[0] == GREATEST);
        self.see("thresholds at 0, at 2^124 - 1 and between", {
            thresholds[0] == 0 && thresholds[9] == GREATEST && thresholds.iter().any(|&t| t > 0 && t < GREATEST)
        });
    }

    /// d beside each threshold, counting those below it and no other, and with each pair of top bits of words 0 and 1.
    fn count_scans(&mut self, made: &Made, thresholds: &[u128]) {
        for (side, is_met, counts) in SIDES {
            for (i, &t) in (0..).zip(thresholds) {
                let x = i + u64::from(counts);
                self.count(format!("d {side} threshold {i}, x = {x}"), made.count(|a, _| is_met(a.d, t) && a.x == x));
            }
            for (word, top) in [0, 1].into_iter().flat_map(|word| TOP_BITS.map(|top| (word, top))) {
                let case = format!("d {side} a threshold, top bits of word {word} {top:02b}");
                let met = |a: &Attempt, words: &[u64]| words[word] >> 62 == top && thresholds.iter().any(|&t| is_met(a.d, t));
                self.count(case, made.count(met));
            }
        }
        for x in 0..=10 {
            self.count(format!("x = {x} accepted"), made.count(|a, _| a.x == x && a.accepted()));
        }
    }

    /// d at either end, and d and a threshold on both sides of a high word, or in one.
    fn count_ends(&mut self, made: &Made, thresholds: &[u128]) {
        let any = |case: &dyn Fn(u128, u128) -> bool| made.count(|a, _| thresholds.iter().any(|&t| case(a.d, t)));
        self.count("d = 0 at a threshold", any(&|d, t| d == 0 && t == 0));
        self.count("d = 0 below all thresholds", made.count(|a, _| a.d == 0 && a.x == 0));
        self.count("d = 2^124 - 1 at a threshold", any(&|d, t| d == GREATEST && t == GREATEST));
        self.count("d = 2^124 - 1 above all thresholds", made.count(|a, _| a.d == GREATEST && thresholds[9] < GREATEST));
        self.count("d just below a threshold of low word 0", any(&|d, t| d + 1 == t && low(t) == 0));
        self.count("d just above a threshold of low word 2^62 - 1", any(&|d, t| d == t + 1 && low(d) == 0));
        self.count("d below a threshold of its high word", any(&|d, t| t >> 62 == d >> 62 && d < t));
        self.count("d above a threshold of its high word", any(&|d, t| t >> 62 == d >> 62 && d > t));
    }

    /// Words 2 and 3.
    fn count_edges_of_attempts(&mut self, made: &Made) {
        self.count("attempts", made.attempts.len());
        for (edge, rejectable) in WORD_2_EDGES {
            self.count(format!("word 2 = {edge} accepted"), made.count(|a, words| words[2] == edge && a.accepted()));
            if rejectable {
                self.count(format!("word 2 = {edge} rejected"), made.count(|a, words| words[2] == edge && !a.accepted()));
            }
        }
        for top in TOP_BITS {
            let count = |case: fn(&Attempt) -> bool| made.count(|a, words| words[3] >> 62 == top && case(a));
            self.count(format!("word 3 at e(N) - 1, top bits {top:02b}"), count(|a| a.tested + 1 == a.e && a.accepted()));
            self.count(format!("word 3 at e(N) - 1, not below the cut e(N), top bits {top:02b}"), {
                count(|a| a.tested + 1 == a.e && a.accepted() && a.tested >= a.cut_e())
            });
            self.count(format!("word 3 at the cut e(N) accepted, top bits {top:02b}"), {
                count(|a| a.accepted() && a.tested == a.cut_e())
            });
            self.count(format!("word 3 at e(N), top bits {top:02b}"), count(|a| a.tested == a.e));
            self.count(format!("word 3 at e(N) + 1, top bits {top:02b}"), count(|a| a.tested == a.e + 1));
            self.count(format!("word 3 at 0, top bits {top:02b}"), count(|a| a.tested == 0 && a.accepted()));
            self.count(format!("word 3 at 2^62 - 1, top bits {top:02b}"), count(|a| a.tested + 1 == 1 << 62 && a.accepted()));
        }
        self.count("zero with sign 1 rejected", made.count(|a, _| a.size() == 0 && a.negative && a.tested < a.e));
        self.count("zero with sign 0 accepted", made.count(|a, _| a.size() == 0 && !a.negative && a.accepted()));
        self.count("greatest size, sign 0", made.count(|a, _| a.size() == 2815 && !a.negative && a.accepted()));
        self.count("greatest size, sign 1", made.count(|a, _| a.size() == 2815 && a.negative && a.accepted()));
    }
}
