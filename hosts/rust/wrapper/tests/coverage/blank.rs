//! What respond calls with an empty challenge came across.

use super::respond::{ACCEPTED, BY_WORD_1, BY_Z, BY_Z1};
use super::Coverage;
use crate::calls::respond::{GREATEST_KEY, GREATEST_Y, GREATEST_Z1};
use crate::cut_exponential::cut_exponential;
use crate::model::exponential;
use crate::model::respond::{Call, Response, RESPONSE_LIMIT};

/// The refusals of a respond call with an empty challenge.
pub const REFUSALS: [u32; 10] = [1, 16, 17, 2, 4, 7, 8, 9, 10, 11];

/// What can become of a blank response, where no more than one of its tests fails.
const OUTCOMES: [(&str, [bool; 5]); 4] = [
    ("accepted", ACCEPTED),
    ("rejected by Z alone", BY_Z),
    ("rejected by word 1 alone", BY_WORD_1),
    ("rejected by z1 alone", BY_Z1),
];

impl Coverage {
    /// Counts a blank response. Whatever g, key and word 2 it has, Z, word 1 and z1 decide.
    pub fn count_blank(&mut self, call: &Call, r: &Response) {
        let key_at = |value: i32| call.key.iter().all(|&key| key == value);
        for (outcome, tests) in OUTCOMES {
            let mut see = |case: &str, met: bool| self.see(format!("{outcome}, {case}"), met && r.tests() == tests);
            see("g = 0", !r.minus);
            see("g = 1", r.minus);
            see("key at 0", key_at(0));
            see("key at 7", key_at(GREATEST_KEY));
            see("key at -7", key_at(-GREATEST_KEY));
            see("word 2 = 2^62 - 1", r.tested2 + 1 == 1 << 62);
        }
        self.count_edges_of_word_1(call, r);
        self.count_edges_of_noise(call, r);
    }

    fn count_edges_of_word_1(&mut self, call: &Call, r: &Response) {
        let e = u128::from(exponential(46_225));
        let mut see = |case: &str, met: bool| self.see_by_top_bits(case, call.words[1], met);
        see("accepted, word 1 = e(46,225) - 1", r.bit() && r.tested1 + 1 == e);
        see("accepted, word 1 = the cut e(46,225)", r.bit() && r.tested1 == cut_exponential(46_225).into());
        see("rejected by word 1 = e(46,225) alone", r.tests() == BY_WORD_1 && r.tested1 == e);
    }

    /// Z and z1, which are those of y.
    fn count_edges_of_noise(&mut self, call: &Call, r: &Response) {
        let (y1, y2) = call.y.split_at(call.session.degree);
        self.see("accepted, Z = 165,688,384", r.bit() && r.response_squares == RESPONSE_LIMIT);
        self.see("rejected by Z = 165,688,385 alone", r.tests() == BY_Z && r.response_squares == 165_688_385);
        for sign in [1, -1] {
            let (limit, greatest) = (sign * GREATEST_Z1, sign * GREATEST_Y);
            self.see(format!("accepted, a value of z1 at {limit}"), r.bit() && y1.contains(&limit));
            self.see(format!("accepted, a value of z2 at {greatest}"), r.bit() && y2.contains(&greatest));
        }
        if r.tests() == BY_Z1 {
            self.count_places("rejected by z1 alone", y1, GREATEST_Z1);
        }
    }

    /// Counts the key of a blank call that is refused for a length, where that of the key alone is wrong.
    pub fn count_unused_key(&mut self, call: &Call) {
        let n = call.session.degree;
        if call.polynomial.len() == 21 && call.y.len() == 2 * n && call.z.len() == 2 * n {
            self.count_wrong_key(n, &call.key);
        }
    }
}
