//! What key checks came across.

use super::respond::{BY_COSH, BY_WORD_1, BY_Z, BY_Z1};
use super::{at_degree, refused, Coverage};
use crate::calls::respond::GREATEST_KEY;
use crate::model::key_check::{Call, Checked, Sums, SUM_LIMIT};
use crate::model::respond::Response;

/// The refusals of a key check.
pub const REFUSALS: [u32; 5] = [1, 2, 6, 10, 13];

impl Coverage {
    /// Counts a key check that was compared.
    pub fn count_key_check(&mut self, call: &Call, checked: &Checked) {
        let refusal = checked.answer.refusal;
        self.count("calls", 1);
        if let Some(sums) = &checked.sums {
            self.count(at_degree(&if refusal == 0 { "passes".into() } else { refused(refusal) }, call.n), 1);
            self.count_lengths_served(call, refusal == 0);
            self.count_keys(call, refusal == 0);
            self.count_table_sums(call, sums);
        }
        if refusal == 2 {
            self.count_wrong_key(call.n, &call.key);
        }
        if refusal == 6 {
            self.count_wrong_lengths(call);
        }
        if refusal == 10 {
            self.count_places("refusal 10", &call.key, GREATEST_KEY);
        }
    }

    fn count_lengths_served(&mut self, call: &Call, passes: bool) {
        self.see("passes at length 1", passes && call.length == 1);
        for (case, met) in [("64", call.length == 64), ("n, n below 64", call.length == call.n && call.n < 64)] {
            self.see(format!("passes at length {case}"), passes && met);
            self.see(format!("refusal 13 at length {case}"), !passes && met);
        }
    }

    fn count_keys(&mut self, call: &Call, passes: bool) {
        let all = |case: fn(i32) -> bool| call.key.iter().all(|&value| case(value));
        let by_turns = call.key.windows(2).all(|pair| pair[0] == -pair[1]);
        self.see("passes, key at 0", passes && all(|value| value == 0));
        self.see("refusal 13, key at 7", !passes && all(|value| value == 7));
        self.see("refusal 13, key at -7", !passes && all(|value| value == -7));
        self.see("refusal 13, key at 7 and -7 by turns", !passes && by_turns);
        self.see("passes, a value at 7", passes && call.key.contains(&7));
        self.see("passes, a value at -7", passes && call.key.contains(&-7));
    }

    /// The final sum at its limit, and the last entries and row sums that are summed.
    fn count_table_sums(&mut self, call: &Call, sums: &Sums) {
        let Sums { table, rows, final_sum } = sums;
        self.see("a final sum of 0", *final_sum == 0);
        self.see("a final sum of 46,225", *final_sum == SUM_LIMIT);
        self.see("a final sum of 46,226", *final_sum == SUM_LIMIT + 1);
        let last_entries: Vec<Last> = table.iter().map(|row| Last::of(row, call.length)).collect();
        self.see("a summed entry below 0", last_entries.iter().any(|last| last.value < 0));
        self.see("an entry that equals the last one summed", last_entries.iter().any(|last| last.is_met_again));
        let last_row = Last::of(rows, call.length);
        self.see("a summed row sum below 0", last_row.value < 0);
        self.see("a row sum that equals the last one summed", last_row.is_met_again);
        self.see("row 0 is not summed", rows[0] < last_row.value);
    }

    /// Counts a key that has not 2n values.
    pub fn count_wrong_key(&mut self, n: usize, key: &[i32]) {
        for (case, length) in [("no", 0), ("n", n), ("2n - 1", 2 * n - 1), ("2n + 1", 2 * n + 1)] {
            self.see(format!("refusal 2, a key of {case} values"), key.len() == length);
        }
    }

    fn count_wrong_lengths(&mut self, call: &Call) {
        self.see("refusal 6, length 0", call.length == 0);
        self.see("refusal 6, length 65, n above it", call.length == 65 && call.n > 65);
        self.see("refusal 6, length n + 1, at most 64", call.length == call.n + 1 && call.length <= 64);
        self.see("refusal 6, a length of 1 in 32 bits", call.length == (1 << 32) + 1);
        self.see("refusal 6, length 2^64 - 1", call.length == usize::MAX);
    }

    /// Counts a response with a key that passes with this sum.
    pub fn count_promise(&mut self, n: usize, sum: u128, r: &Response) {
        self.count(at_degree("responses", n), 1);
        self.see("A is the final sum", r.product_squares == sum && sum > 0);
        self.see("accepted", r.bit());
        self.see("rejected by Z alone", r.tests() == BY_Z);
        self.see("rejected by word 1 alone", r.tests() == BY_WORD_1);
        self.see("rejected by the cosh test alone", r.tests() == BY_COSH);
        self.see("rejected by z1 alone", r.tests() == BY_Z1);
    }
}

/// The last of the largest values that are summed, and whether another that is not summed equals it.
struct Last {
    value: i64,
    is_met_again: bool,
}

impl Last {
    fn of(values: &[i64], length: usize) -> Last {
        let mut falling = values.to_vec();
        falling.sort_unstable_by(|a, b| b.cmp(a));
        let value = falling[length - 1];
        Last { value, is_met_again: falling.get(length) == Some(&value) }
    }
}
