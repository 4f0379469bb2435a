//! e(N) with the squarings of document 01, which document 02 changed: each of the six cut, so that e(N) was up to 63 units less.
//! Calls are made and counted by it, so that a run meets the numbers that pass now, and did not before. No other part of the
//! comparison knows the old squarings.

use crate::model::draw::Attempt;
use crate::model::respond::Response;
use crate::model::{evaluated, RESPONSE_DEVIATION};

/// The cut e(N) of the exponential by N alone, of an N up to the limit.
pub fn cut_exponential(n: u64) -> u64 {
    cut_exponential_at(RESPONSE_DEVIATION, n)
}

/// The cut e(N) at a deviation.
pub fn cut_exponential_at(deviation: u64, n: u64) -> u64 {
    let mut a = evaluated(deviation, n);
    for _ in 0..6 {
        a = (a * a) >> 62;
    }
    a as u64
}

impl Attempt {
    /// The cut e(N).
    pub fn cut_e(&self) -> u128 {
        cut_exponential_at(self.deviation, self.n).into()
    }
}

impl Response {
    /// The response with the cut e(N1) and e(N2), and the f of that.
    pub fn cut(&self) -> Response {
        let [e1, e2] = [self.n1, self.n2].map(|n| u128::from(cut_exponential(n)));
        Response { e1, e2, f: (e2 * e2) >> 62, ..self.clone() }
    }
}
