//! What respond calls came across.

use super::{at_degree, Coverage};
use crate::calls::respond::{GREATEST_KEY, GREATEST_Y, GREATEST_Z1};
use crate::model::respond::{list_asked, Call, Responded, Response, PRODUCT_LIMIT, RESPONSE_LIMIT, WORDS_ASKED};
use crate::run;

/// The refusals of a respond call.
pub const REFUSALS: [u32; 11] = [1, 16, 17, 2, 4, 6, 7, 8, 9, 10, 11];

/// The five tests of a response, where it is accepted, and where one alone fails.
pub const ACCEPTED: [bool; 5] = [true; 5];
pub const BY_A: [bool; 5] = [false, true, true, true, true];
pub const BY_Z: [bool; 5] = [true, false, true, true, true];
pub const BY_WORD_1: [bool; 5] = [true, true, false, true, true];
pub const BY_COSH: [bool; 5] = [true, true, true, false, true];
pub const BY_Z1: [bool; 5] = [true, true, true, true, false];

impl Coverage {
    /// Counts a respond call that was compared.
    pub fn count_respond(&mut self, call: &Call, responded: &Responded) {
        if !run::counts_cases() {
            return;
        }
        let refusal = responded.answer.refusal;
        let least = list_asked(call.session.degree, call.challenge.len());
        self.count_call(call.session, refusal);
        self.count_lent("words", call.words.len(), WORDS_ASKED, refusal, 7);
        self.count_lent("list entries", call.list.len(), least, refusal, 8);
        if let Some(response) = &responded.response {
            self.count(at_degree(if response.bit() { "accepted" } else { "rejected" }, call.session.degree), 1);
            if call.challenge.is_empty() {
                self.count_blank(call, response);
            } else {
                self.count_response(call, response);
            }
        }
        if refusal == 2 && call.challenge.is_empty() {
            self.count_unused_key(call);
        }
        if refusal == 6 {
            self.count_wrong_challenge(call.session.degree, &call.challenge);
        }
        if refusal == 10 {
            self.count_places("refusal 10", &call.key, GREATEST_KEY);
        }
        if refusal == 11 {
            self.count_places("refusal 11", &call.y, GREATEST_Y);
        }
    }

    /// Counts a response to one position or more.
    fn count_response(&mut self, call: &Call, response: &Response) {
        self.count_values(call);
        self.count_sums(call, response);
        self.count_accepted(call, response);
        self.count_rejected(response);
        self.count_accepted_coefficients(call, response);
        self.count_rejected_coefficients(call, response);
        self.count_edges_of_words(call, response);
        self.count_rounding(call, response);
    }

    /// The challenge, the key and y at their ends.
    fn count_values(&mut self, call: &Call) {
        let positions = call.challenge.len();
        let greatest = |values: &[i32], bound: i32| values.iter().all(|value| value.abs() == bound);
        let one_sign = |values: &[i32]| values.iter().all(|&value| value == values[0]);
        self.count_challenge(call.session.degree, &call.challenge);
        let greatest_key = positions == 64 && greatest(&call.key, GREATEST_KEY);
        self.see("64 positions, key at -7 and 7", greatest_key && !one_sign(&call.key));
        self.see("64 positions, key at 7", greatest_key && one_sign(&call.key) && call.key[0] > 0);
        self.see("64 positions, key at -7", greatest_key && one_sign(&call.key) && call.key[0] < 0);
        self.see("y at -2,815 and 2,815", greatest(&call.y, GREATEST_Y) && !one_sign(&call.y));
    }

    /// A, Z and I at their edges.
    fn count_sums(&mut self, call: &Call, r: &Response) {
        let in_32_bits = r.response_squares % (1 << 32);
        self.see("A above 2^20", r.product_squares > 1 << 20);
        self.see("Z above 2^32", r.response_squares > 1 << 32);
        self.see("rejected by Z alone, in 32 bits at most its limit", r.tests() == BY_Z && in_32_bits <= RESPONSE_LIMIT);
        self.see("2|I| above 5,534,960", 2 * r.inner.abs() > 5_534_960);
        self.see("accepted, A = 0", r.bit() && r.product_squares == 0);
        self.see("accepted, A = 46,224", r.bit() && r.product_squares == 46_224);
        self.see("accepted, A = 46,225", r.bit() && r.product_squares == PRODUCT_LIMIT);
        self.see("accepted, A = 46,225, word 1 = 2^62 - 1", {
            r.bit() && r.product_squares == PRODUCT_LIMIT && r.tested1 + 1 == 1 << 62
        });
        self.see("accepted, Z = 165,688,384", r.bit() && r.response_squares == RESPONSE_LIMIT);
        self.see("rejected by A = 46,226 alone", r.tests() == BY_A && r.product_squares == 46_226);
        self.see("rejected by Z = 165,688,385 alone", r.tests() == BY_Z && r.response_squares == 165_688_385);
        self.see("rejected by A and Z alone", r.tests() == [false, false, true, true, true]);
        self.see("accepted, a value of y at 2,815", r.bit() && call.y.contains(&GREATEST_Y));
        self.see("accepted, a value of y at -2,815", r.bit() && call.y.contains(&-GREATEST_Y));
        self.see("accepted, a value of the key at 7", r.bit() && call.key.contains(&GREATEST_KEY));
        self.see("accepted, a value of the key at -7", r.bit() && call.key.contains(&-GREATEST_KEY));
    }

    fn count_accepted(&mut self, call: &Call, r: &Response) {
        let mut see = |case: &str, met: bool| self.see(case, met && r.bit() && r.product_squares > 0);
        see("accepted, g = 0", !r.minus);
        see("accepted, g = 1", r.minus);
        see("accepted, word 0 = 0", call.words[0] == 0);
        see("accepted, word 0 = 1", call.words[0] == 1);
        see("accepted, word 0 = 2^64 - 2", call.words[0] == u64::MAX - 1);
        see("accepted, word 0 = 2^64 - 1", call.words[0] == u64::MAX);
        see("accepted, I = 0", r.inner == 0);
        see("accepted, I = 0, word 2 = 2^62 - 1", r.inner == 0 && r.tested2 + 1 == 1 << 62);
        see("accepted, I = 1", r.inner == 1);
        see("accepted, I = -1", r.inner == -1);
        see("accepted, I = 1,986,526: the first cut e at 0", r.inner == 1_986_526);
        see("accepted, I = -1,986,526: the first cut e at 0", r.inner == -1_986_526);
        see("accepted, I = 2,018,565: the last e above 0", r.inner == 2_018_565);
        see("accepted, I = -2,018,565: the last e above 0", r.inner == -2_018_565);
        see("accepted, e = 1, word 2 = 1", r.e2 == 1 && r.tested2 == 1);
        see("accepted, cosh sides of one high word", r.cosh_in_one_high_word());
    }

    /// Counts a response that one of its tests alone rejects.
    fn count_rejected(&mut self, r: &Response) {
        let mut see = |case: &str, tests: [bool; 5], met: bool| self.see(case, met && r.tests() == tests);
        see("rejected by A alone", BY_A, true);
        see("rejected by Z alone", BY_Z, true);
        see("rejected by word 1 alone", BY_WORD_1, true);
        see("rejected by the cosh test alone", BY_COSH, true);
        see("rejected by z1 alone", BY_Z1, true);
        see("rejected by z1 alone, g = 0", BY_Z1, !r.minus);
        see("rejected by z1 alone, g = 1", BY_Z1, r.minus);
        see("rejected by the cosh test alone, I above 0", BY_COSH, r.inner > 0);
        see("rejected by the cosh test alone, I below 0", BY_COSH, r.inner < 0);
        see("rejected by cosh sides of one high word alone", BY_COSH, r.cosh_in_one_high_word());
        see("rejected by e = 0 alone, word 2 = 0", BY_COSH, r.e2 == 0 && r.tested2 == 0);
        see("rejected by I = 2,018,566 alone, word 2 = 0", BY_COSH, r.inner.abs() == 2_018_566 && r.tested2 == 0);
        see("rejected by e = 1 alone, word 2 = 2", BY_COSH, r.e2 == 1 && r.tested2 == 2);
    }

    /// Values of z1 at its limit, and of z2 above it, in a response that is accepted.
    fn count_accepted_coefficients(&mut self, call: &Call, r: &Response) {
        let (z1, z2) = r.halves();
        let mut see = |case: &str, met: bool| self.see(format!("accepted, g = {}, {case}", u8::from(r.minus)), met && r.bit());
        for (end, place) in [("first", 0), ("last", z1.len() - 1)] {
            for sign in [1, -1] {
                let (z1, z2) = (sign * z1[place], sign * z2[place]);
                see(&format!("the {end} value of z1 at {}", sign * GREATEST_Z1), z1 == GREATEST_Z1);
                see(&format!("the {end} value of z2 at {}", sign * (GREATEST_Z1 + 1)), z2 == GREATEST_Z1 + 1);
                see(&format!("the {end} value of z2 beyond {}", sign * GREATEST_Y), z2 > GREATEST_Y);
            }
        }
        see("y would not pass for z1", !passes(&call.y[..z1.len()]));
        see("z1 would not pass by the other sign", !passes(&other_sign(&z1, &call.y)));
    }

    /// Where the values of z1 are that alone reject a response, and what would let it pass.
    fn count_rejected_coefficients(&mut self, call: &Call, r: &Response) {
        if r.tests() == BY_Z1 {
            let (z1, z2) = r.halves();
            let name = format!("rejected by z1 alone, g = {}", u8::from(r.minus));
            self.count_places(&name, &z1, GREATEST_Z1);
            self.see(format!("{name}, y would pass for it"), passes(&call.y[..z1.len()]));
            self.see(format!("{name}, it would pass by the other sign"), passes(&other_sign(&z1, &call.y)));
            self.see(format!("{name}, z2 would pass for it"), passes(&z2));
        }
    }

    /// Words 1 and 2 on both sides of what decides, with each pair of top bits.
    fn count_edges_of_words(&mut self, call: &Call, r: &Response) {
        let mut see = |word: usize, case: &str, met: bool| self.see_by_top_bits(case, call.words[word], met);
        see(1, "accepted, word 1 = e(N1) - 1", r.bit() && r.tested1 + 1 == r.e1);
        see(1, "rejected by word 1 = e(N1) alone", r.tests() == BY_WORD_1 && r.tested1 == r.e1);
        see(2, "accepted, the last word 2 to pass", r.bit() && r.is_last_to_pass());
        see(2, "rejected by the first word 2 not to pass alone", r.tests() == BY_COSH && r.is_first_not_to_pass());
    }

    /// Words 1 and 2 of a response that is accepted, and would not be by the cut e(N1), by the cut e(N2), or by f rounded.
    fn count_rounding(&mut self, call: &Call, r: &Response) {
        let cut = r.cut();
        let f_rounded = Response { f: (r.e2 * r.e2 + (1 << 61)) >> 62, ..r.clone() };
        let mut see = |word: usize, case: &str, met: bool| self.see_by_top_bits(case, call.words[word], met && r.bit());
        let by_word_1 = cut.tests() == BY_WORD_1;
        see(1, "accepted, word 1 = e(N1) - 1, not by the cut e(N1)", by_word_1 && r.tested1 + 1 == r.e1);
        see(1, "accepted, word 1 = the cut e(N1)", by_word_1 && r.tested1 == cut.e1);
        let by_cosh = cut.tests() == BY_COSH;
        see(2, "accepted, the last word 2 to pass, not by the cut e(N2)", by_cosh && r.is_last_to_pass());
        see(2, "accepted, the first word 2 not to pass by the cut e(N2)", by_cosh && cut.is_first_not_to_pass());
        see(2, "accepted, the last word 2 to pass, not by f rounded", f_rounded.tests() == BY_COSH && r.is_last_to_pass());
    }
}

/// The two sides of the cosh test, which is strict, and by what the left one grows with word 2.
impl Response {
    fn cosh_factor(&self) -> u128 {
        (1 << 62) + self.f
    }

    fn cosh_sides(&self) -> (u128, u128) {
        (self.tested2 * self.cosh_factor(), self.e2 << 63)
    }

    fn is_last_to_pass(&self) -> bool {
        let (left, right) = self.cosh_sides();
        left < right && right <= left + self.cosh_factor()
    }

    fn is_first_not_to_pass(&self) -> bool {
        let (left, right) = self.cosh_sides();
        right <= left && left < right + self.cosh_factor()
    }

    fn cosh_in_one_high_word(&self) -> bool {
        let (left, right) = self.cosh_sides();
        left >> 64 == right >> 64
    }

    /// z1 and z2.
    fn halves(&self) -> (Vec<i32>, Vec<i32>) {
        let z: Vec<i32> = self.z.iter().map(|&value| value as i32).collect();
        let (z1, z2) = z.split_at(z.len() / 2);
        (z1.to_vec(), z2.to_vec())
    }
}

/// Whether these values pass as those of z1.
fn passes(values: &[i32]) -> bool {
    values.iter().all(|value| value.abs() <= GREATEST_Z1)
}

/// z1 by the other sign of the product. Both together are y twice.
fn other_sign(z1: &[i32], y: &[i32]) -> Vec<i32> {
    z1.iter().zip(y).map(|(z, y)| 2 * y - z).collect()
}
