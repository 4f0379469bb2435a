//! Lists of calls from an opening, served or refused: each takes the session that the one before handed back, and those that
//! are not refused lend one and the same y.

use crate::calls::{self, DEVIATIONS, FORGED_DEVIATIONS};
use crate::comparison::Comparison;
use crate::coverage::{
    at_deviation, at_every_degree, at_every_deviation, refused, Coverage, BLANK_REFUSALS, DRAW_REFUSALS, RESPOND_REFUSALS,
};
use crate::model::{Session, RESPONSE_DEVIATION};
use crate::random::Random;
use crate::run;

#[derive(Default)]
struct Coverages {
    draws: Coverage,
    /// Responses to one position or more.
    responses: Coverage,
    /// Blank responses.
    blanks: Coverage,
    /// A call by the one before it that was served.
    steps: Coverage,
}

pub fn lists_of_calls_are_the_models(comparison: &Comparison) {
    let mut coverages = Coverages::default();
    for seed in run::seeds(20) {
        compare_list_of_calls(comparison, seed, &mut coverages);
        comparison.count_list();
    }
    coverages.draws.print("draws in lists of calls");
    coverages.responses.print("responses in lists of calls");
    coverages.blanks.print("blank responses in lists of calls");
    coverages.steps.print("steps in lists of calls");
    coverages.draws.require(of_lists(&DRAW_REFUSALS));
    coverages.draws.require(at_every_degree(&["full", "spent"]));
    coverages.draws.require(at_every_deviation(&["full", "spent"]));
    coverages.responses.require(of_lists(&RESPOND_REFUSALS));
    coverages.responses.require(at_every_degree(&["accepted", "rejected"]));
    coverages.responses.require(["rejected by z1 alone".into()]);
    coverages.blanks.require(of_lists(&BLANK_REFUSALS));
    let outcomes = ["accepted", "rejected by word 1 alone", "rejected by z1 alone"];
    coverages.blanks.require(outcomes.into_iter().flat_map(|outcome| [0, 1].map(|g| format!("{outcome}, g = {g}"))));
    coverages.steps.require(every_step());
}

/// The refusals of these that a list of calls can have. No opening hands back a deviation that is not served with a degree that is,
/// so there is no 16.
fn of_lists(refusals: &[u32]) -> Vec<String> {
    refusals.iter().filter(|&&refusal| refusal != 16).map(|&refusal| refused(refusal)).collect()
}

/// After each call, each that can follow it at its deviation; and after a refused opening, which gives deviation 0, refused ones.
fn every_step() -> Vec<String> {
    let responses = ["accepted", "rejected", "blank accepted", "blank rejected"];
    let afters = ["full", "spent", "draw refused", "response refused"];
    let mut steps = Vec::new();
    let mut add = |deviation: u64, befores: &[&str], afters: &[&str]| {
        steps.extend(befores.iter().flat_map(|before| afters.iter().map(move |after| step(deviation, before, after))));
    };
    add(0, &["opened"], &["draw refused", "response refused"]);
    for deviation in DEVIATIONS {
        add(deviation, &["opened", "full", "spent"], &afters);
    }
    add(RESPONSE_DEVIATION, &responses, &afters);
    add(RESPONSE_DEVIATION, &["full"], &responses);
    steps
}

fn step(deviation: u64, before: &str, after: &str) -> String {
    at_deviation(&format!("{before}, then {after}"), deviation)
}

/// A list of calls as it runs: the session that the call before handed back, and the one y.
struct Running<'a> {
    comparison: &'a Comparison,
    random: Random,
    session: Session,
    /// The deviation that calls are made for: the session's, unless its opening was refused.
    deviation: u64,
    y: Vec<i32>,
}

fn compare_list_of_calls(comparison: &Comparison, seed: u64, coverages: &mut Coverages) {
    let mut random = Random::new(seed);
    let degree = if random.one_in(20) { 12 } else { calls::degree_of_list(&mut random) };
    let deviation = calls::deviation_of_list(&mut random);
    let asked = if random.one_in(20) { random.pick(&FORGED_DEVIATIONS) } else { deviation };
    let session = comparison.opening(degree, asked);
    let y = (0..2 * degree).map(|_| random.word() as i32).collect();
    let calls = random.below(20);
    let mut running = Running { comparison, random, session, deviation, y };
    let mut before = "opened";
    for number in 0..calls {
        let origin = format!("BLISS_SEED={seed}, call {number} of the list");
        let responds = running.random.below(4) < if running.session.is_drawn() { 3 } else { 1 };
        let served = if responds { running.respond(&origin, coverages) } else { running.draw(&origin, coverages) };
        let after = served.unwrap_or(if responds { "response refused" } else { "draw refused" });
        coverages.steps.count(step(session.deviation, before, after), 1);
        before = served.unwrap_or(before);
    }
}

impl Running<'_> {
    /// Draws, and says what became of it, if it was served.
    fn draw(&mut self, origin: &str, coverages: &mut Coverages) -> Option<&'static str> {
        let random = &mut self.random;
        let mut call = calls::draw::right_at(random, self.y.len() / 2, self.deviation);
        call.session = self.session;
        let refusal = random.pick(&[0, 0, 0, 0, 0, 0, 0, 0, 2, 3, 4, 5, 7, 8]);
        // One that is to be refused lends a y of its own.
        if refusal == 0 || !calls::draw::spoil(random, &mut call, refusal) {
            call.y.clone_from(&self.y);
        }
        let drawn = self.comparison.draw(&origin, &call);
        coverages.draws.count_draw(&call, &drawn);
        self.session = drawn.session;
        if drawn.answer.refusal != 0 {
            return None;
        }
        self.y = drawn.y;
        Some(if self.session.is_drawn() { "full" } else { "spent" })
    }

    /// Responds, and says what became of it, if it was served.
    fn respond(&mut self, origin: &str, coverages: &mut Coverages) -> Option<&'static str> {
        let random = &mut self.random;
        let degree = self.y.len() / 2;
        let challenge = calls::respond::challenge(random, degree);
        let mut call = calls::respond::over(random, degree, &challenge, &self.y);
        call.session = self.session;
        let refusal = random.pick(&[0, 0, 0, 0, 0, 0, 0, 0, 2, 4, 6, 7, 8, 10, 11]);
        if refusal != 0 {
            calls::respond::spoil(random, &mut call, refusal);
        }
        let responded = self.comparison.respond(&origin, &call);
        let blank = call.challenge.is_empty();
        let responses = if blank { &mut coverages.blanks } else { &mut coverages.responses };
        responses.count_respond(&call, &responded);
        self.session = responded.session;
        if responded.answer.refusal != 0 {
            return None;
        }
        self.y = responded.y;
        Some(match (blank, responded.answer.bit) {
            (false, true) => "accepted",
            (false, false) => "rejected",
            (true, true) => "blank accepted",
            (true, false) => "blank rejected",
        })
    }
}
