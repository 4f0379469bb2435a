//! What a run of comparisons came across, so that a run that missed a case fails.

mod blank;
mod draw;
mod key_check;
mod old_order;
mod record;
mod respond;
mod session;

use std::collections::BTreeMap;

use crate::calls::{self, DEGREES};
use crate::model::Session;
use crate::run;

pub use blank::REFUSALS as BLANK_REFUSALS;
pub use draw::REFUSALS as DRAW_REFUSALS;
pub use key_check::REFUSALS as KEY_CHECK_REFUSALS;
pub use record::{of_map, of_pad, READ_REFUSALS, WRITE_REFUSALS};
pub use respond::REFUSALS as RESPOND_REFUSALS;
pub use respond::{ACCEPTED, BY_A, BY_COSH, BY_WORD_1, BY_Z, BY_Z1};
pub use session::{at_deviation, at_every_deviation, by_every_session, with_every_drawn};

/// The top two bits of a word, which 62 of the word leaves out.
const TOP_BITS: [u64; 4] = [0, 1, 2, 3];

/// Cases, and how often each was met.
#[derive(Default)]
pub struct Coverage {
    met: BTreeMap<String, usize>,
}

impl Coverage {
    /// Counts a case that was met so many times. 0 names a case that the run may still miss.
    pub fn count(&mut self, case: impl Into<String>, times: usize) {
        *self.met.entry(case.into()).or_default() += times;
    }

    pub fn see(&mut self, case: impl Into<String>, met: bool) {
        self.count(case, usize::from(met));
    }

    /// Counts a case that is to be met with each pair of top bits of a word.
    fn see_by_top_bits(&mut self, case: &str, word: u64, met: bool) {
        for top in TOP_BITS {
            self.see(format!("{case}, top bits {top:02b}"), met && word >> 62 == top);
        }
    }

    /// Counts what every call has.
    fn count_call(&mut self, session: Session, refusal: u32) {
        self.count("calls", 1);
        if refusal != 0 {
            self.count(refused(refusal), 1);
            self.count_handed_back(session, refusal);
        }
    }

    /// Counts how many words or list entries were lent, of those that a call asks for. Fewer are refused by `fewer`.
    fn count_lent(&mut self, what: &str, lent: usize, asked: usize, refusal: u32, fewer: u32) {
        self.see(format!("{what}: just as many as asked for"), refusal == 0 && lent == asked);
        self.see(format!("{what}: one more than asked for"), refusal == 0 && lent == asked + 1);
        self.see(format!("{what}: one less than asked for, {}", refused(fewer)), refusal == fewer && lent + 1 == asked);
    }

    /// Counts a challenge that is served, and is not empty.
    fn count_challenge(&mut self, n: usize, challenge: &[u32]) {
        let positions = challenge.len();
        self.see("one position", positions == 1);
        self.see("64 positions", positions == 64);
        self.see("n positions, n below 64", positions == n && n < 64);
        self.see("position 0", challenge[0] == 0);
        self.see("position n - 1", challenge[positions - 1] as usize == n - 1);
    }

    /// Counts what refuses a challenge, but for its being empty.
    fn count_wrong_challenge(&mut self, n: usize, challenge: &[u32]) {
        let ascends = challenge.windows(2).all(|pair| pair[0] < pair[1]);
        let below_n = challenge.iter().all(|&position| (position as usize) < n);
        self.see("refusal 6, 65 positions alone", challenge.len() == 65 && ascends && below_n);
        self.see("refusal 6, n + 1 positions", challenge.len() == n + 1);
        let length_is_right = !challenge.is_empty() && challenge.len() <= n.min(64);
        self.see("refusal 6, position n alone", length_is_right && ascends && challenge.contains(&(n as u32)));
        self.see(
            "refusal 6, a greater position alone",
            length_is_right && ascends && challenge.iter().any(|&c| c as usize > n),
        );
        let equal = challenge.windows(2).any(|pair| pair[0] == pair[1]);
        let falls = challenge.windows(2).any(|pair| pair[0] > pair[1]);
        self.see("refusal 6, equal positions alone", length_is_right && below_n && equal && !falls);
        self.see("refusal 6, falling positions alone", length_is_right && below_n && falls && !equal);
    }

    /// Counts where the values are that are outside their bounds.
    fn count_places(&mut self, refusal: &str, values: &[i32], bound: i32) {
        let outside: Vec<usize> = (0..values.len()).filter(|&place| values[place].unsigned_abs() > bound as u32).collect();
        let last = values.len() - 1;
        self.see(format!("{refusal}, the first value alone"), outside == [0]);
        self.see(format!("{refusal}, the last value alone"), outside == [last]);
        self.see(format!("{refusal}, a value between alone"), outside.len() == 1 && ![0, last].contains(&outside[0]));
        self.see(format!("{refusal}, several values"), outside.len() > 1);
        self.see(format!("{refusal}, {} alone", bound + 1), outside.len() == 1 && values[outside[0]] == bound + 1);
        self.see(format!("{refusal}, -{} alone", bound + 1), outside.len() == 1 && values[outside[0]] == -bound - 1);
    }

    /// Counts the reasons for which a call could be refused, of the refusals that it has, in their order. The first refuses it.
    pub fn count_reasons(&mut self, reasons: &[u32], refusals: &[u32]) {
        if let first @ 1.. = calls::first(reasons, refusals) {
            self.see(refused_alone(first), reasons == [first]);
            for &reason in reasons.iter().filter(|&&reason| reason != first) {
                self.count(refused_before(first, reason), 1);
            }
        }
        self.see("every refusal at once", refusals.iter().all(|refusal| reasons.contains(refusal)));
    }

    /// Fails where a whole run missed one of these cases.
    pub fn require(&self, cases: impl IntoIterator<Item = String>) {
        if run::is_whole() {
            for case in cases {
                assert!(self.met.get(&case).is_some_and(|&times| times > 0), "the run met no case of: {case}");
            }
        }
    }

    /// Fails where a whole run missed a case that it counts.
    pub fn require_what_is_counted(&self) {
        self.require(self.met.keys().cloned());
    }

    pub fn print(&self, title: &str) {
        if run::prints_cases() {
            let lines: String = self.met.iter().map(|(case, times)| format!("{times:9}  {case}\n")).collect();
            println!("{title}:\n{lines}");
        }
    }
}

/// Each of these at every degree.
pub fn at_every_degree(cases: &[&str]) -> Vec<String> {
    DEGREES.iter().flat_map(|&n| cases.iter().map(move |case| at_degree(case, n))).collect()
}

/// Each of these refusals, alone, and before each of the others that come after it.
pub fn every_refusal(refusals: &[u32]) -> Vec<String> {
    let alone = refusals.iter().map(|&refusal| refused_alone(refusal));
    let pairs = refusals.iter().enumerate().flat_map(|(place, &first)| {
        let others = &refusals[place + 1..];
        others.iter().map(move |&other| refused_before(first, other))
    });
    alone.chain(pairs).collect()
}

pub fn refused(refusal: u32) -> String {
    format!("refusal {refusal}")
}

fn refused_alone(refusal: u32) -> String {
    format!("refusal {refusal} alone")
}

fn refused_before(refusal: u32, other: u32) -> String {
    format!("refusal {refusal} before {other}")
}

pub fn at_degree(case: &str, n: usize) -> String {
    format!("{case}, n = {n:4}")
}
