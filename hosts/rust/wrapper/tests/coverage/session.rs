//! What the sessions of calls came across.

use super::{refused, Coverage};
use crate::calls::respond::OTHER_DEVIATIONS;
use crate::calls::{drawn_numbers, DEVIATIONS, FORGED_DEVIATIONS, NOT_DRAWN};
use crate::model::Session;

impl Coverage {
    /// Counts the session of a refused call, which hands it back.
    pub fn count_handed_back(&mut self, session: Session, refusal: u32) {
        self.count(with_drawn(&refused(refusal), session.drawn), 1);
        self.count(at_deviation(&refused(refusal), session.deviation), 1);
    }
}

/// Those of these refusals that a session brings about, each by every number that does so.
pub fn by_every_session(refusals: &[u32]) -> Vec<String> {
    let by_numbers = refusals.iter().flat_map(|&refusal| match refusal {
        9 => NOT_DRAWN.map(|drawn| with_drawn(&refused(9), drawn)).to_vec(),
        16 => FORGED_DEVIATIONS.map(|deviation| at_deviation(&refused(16), deviation)).to_vec(),
        17 => OTHER_DEVIATIONS.map(|deviation| at_deviation(&refused(17), deviation)).to_vec(),
        _ => vec![],
    });
    by_numbers.collect()
}

/// Each of these at every deviation.
pub fn at_every_deviation(cases: &[impl AsRef<str>]) -> Vec<String> {
    DEVIATIONS.iter().flat_map(|&deviation| cases.iter().map(move |case| at_deviation(case.as_ref(), deviation))).collect()
}

pub fn at_deviation(case: &str, deviation: u64) -> String {
    format!("{case}, deviation {deviation}")
}

/// Each of these with every number for `drawn`.
pub fn with_every_drawn(cases: &[impl AsRef<str>]) -> Vec<String> {
    drawn_numbers().flat_map(|drawn| cases.iter().map(move |case| with_drawn(case.as_ref(), drawn))).collect()
}

pub fn with_drawn(case: &str, drawn: u64) -> String {
    format!("{case}, drawn {drawn}")
}
