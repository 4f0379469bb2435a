//! The customer's third demand, as a property of the running archive: over lists of calls, each from a fresh opening, the read
//! list tells exactly the history, and nothing but what it lists decides what the calls give.

mod deviations;
mod history;
mod places;
mod steps;

use std::collections::hash_map::DefaultHasher;
use std::collections::HashMap;
use std::hash::{Hash, Hasher};

use bliss_box::Kind;

use crate::calls::DEVIATIONS;
use crate::comparison::Comparison;
use crate::coverage::{at_degree, at_deviation, at_every_degree, at_every_deviation, Coverage, BY_Z1};
use crate::model::respond::{self, WORDS_ASKED};
use crate::model::RESPONSE_DEVIATION;
use crate::random::Random;
use crate::run;
use history::{history, neighbours, Event, History, DIFFERENCES};
use places::{counterpart, different, listed};
use steps::{calls_of, run_any, Call, Given, Opening, Step};

pub use deviations::the_deviation_can_decide;

/// An opening that a history can have: where it holds no response, at any deviation. An empty history has any opening, and may have
/// a refused one.
fn opening_of(random: &mut Random, history: &History) -> Opening {
    let any_deviation = random.pick(&DEVIATIONS);
    match history.first() {
        None => Opening { degree: random.pick(&[4, 8, 12]), deviation: random.pick(&[any_deviation, any_deviation, 108]) },
        Some(&(degree, _)) => {
            let responds = history.iter().any(|(_, event)| matches!(event, Event::Respond { .. }));
            Opening { degree, deviation: if responds { RESPONSE_DEVIATION } else { any_deviation } }
        }
    }
}

fn read_list(given: &[Given]) -> Vec<u32> {
    given.iter().flat_map(|given| given.entries.iter().copied()).collect()
}

/// The histories and the read lists of a run, so that any two of them are compared, and not pairs alone. They are long, and so
/// kept by their hashes.
#[derive(Default)]
struct Known {
    lists: HashMap<u64, u64>,
    histories: HashMap<u64, u64>,
}

fn hash_of(value: impl Hash) -> u64 {
    let mut hasher = DefaultHasher::new();
    value.hash(&mut hasher);
    hasher.finish()
}

impl Known {
    fn compare(&mut self, origin: &str, history: &History, list: &[u32]) {
        let (history, list) = (hash_of(history), hash_of(list));
        let same_list = *self.lists.entry(history).or_insert(list) == list;
        assert!(same_list, "{origin}: equal histories have different read lists");
        let same_history = *self.histories.entry(list).or_insert(history) == history;
        assert!(same_history, "{origin}: different histories have equal read lists");
    }
}

/// The first half: two lists of calls have equal read lists exactly when their histories are equal. Each history has two lists of
/// calls, and neighbours that differ from it in one thing alone.
pub fn read_lists_are_equal_exactly_when_histories_are(comparison: &Comparison) {
    let mut coverage = Coverage::default();
    let mut known = Known::default();
    for seed in run::seeds(40) {
        let origin = format!("BLISS_SEED={seed}");
        let mut random = Random::new(seed);
        let history = history(&mut random);
        let (opening, steps, list) = listed_calls(&mut random, &origin, &history);
        let (other_opening, other_steps, other_list) = listed_calls(&mut random, &origin, &history);
        assert!(list == other_list, "{origin}: equal histories have different read lists");
        comparison.count_pair();
        known.compare(&origin, &history, &list);
        count_history(&mut coverage, opening, &history);
        count_what_differs(&mut coverage, &steps, &other_steps);
        if !history.is_empty() {
            coverage.count(at_deviations("equal histories", [opening.deviation, other_opening.deviation]), 1);
        }
        for (name, neighbour) in neighbours(&mut random, &history) {
            let (_, _, other_list) = listed_calls(&mut random, &origin, &neighbour);
            assert!(list != other_list, "{origin}: histories that differ in {name} have equal read lists");
            comparison.count_pair();
            known.compare(&origin, &neighbour, &other_list);
            coverage.count(differing(name), 1);
        }
    }
    coverage.print("demand 3, histories");
    coverage.require_what_is_counted();
    coverage.require(DIFFERENCES.map(|(_, name)| differing(name)));
    coverage.require(at_every_degree(&["draw", "response"]));
    coverage.require(pairs_of_deviations().map(|pair| at_deviations("equal histories", pair)));
}

/// Every two deviations, the lesser first.
fn pairs_of_deviations() -> impl Iterator<Item = [u64; 2]> {
    let pairs = DEVIATIONS.into_iter().flat_map(|lesser| DEVIATIONS.map(|greater| [lesser, greater]));
    pairs.filter(|[lesser, greater]| lesser < greater)
}

fn at_deviations(case: &str, mut deviations: [u64; 2]) -> String {
    deviations.sort_unstable();
    format!("{case} at {} and at {}", deviations[0], deviations[1])
}

fn differing(name: &str) -> String {
    format!("histories that differ in {name} alone")
}

/// A list of calls with this history, refused ones among them, with its opening and its read list.
fn listed_calls(random: &mut Random, origin: &str, history: &History) -> (Opening, Vec<Step>, Vec<u32>) {
    let opening = opening_of(random, history);
    let steps = calls_of(random, opening, history, true);
    let list = read_list(&steps::run(random, origin, opening, &steps));
    (opening, steps, list)
}

fn count_history(coverage: &mut Coverage, opening: Opening, history: &History) {
    coverage.see("empty history", history.is_empty());
    coverage.see("history of four calls", history.len() == 4);
    for (degree, event) in history {
        match event {
            Event::Draw { bits } => {
                coverage.count(at_degree("draw", *degree), 1);
                coverage.count(at_deviation("draw", opening.deviation), 1);
                coverage.see("full draw", history::accepted(bits) == 2 * degree);
                coverage.see("spent draw", history::accepted(bits) < 2 * degree);
            }
            Event::Respond { challenge, bit } => {
                let response = if challenge.is_empty() { "blank response" } else { "response" };
                coverage.count(at_degree(response, *degree), 1);
                coverage.see(format!("accepted {response}"), *bit);
                coverage.see(format!("rejected {response}"), !*bit);
            }
        }
    }
}

/// In what two lists of calls of one history differ.
fn count_what_differs(coverage: &mut Coverage, steps: &[Step], others: &[Step]) {
    let refused = |steps: &[Step]| steps.iter().filter(|step| step.refused).count();
    coverage.see("equal histories, other refused calls", refused(steps) != refused(others));
    coverage.see("a refused call before a served one", steps.windows(2).any(|pair| pair[0].refused && !pair[1].refused));
    let served = |step: &&Step| !step.refused;
    for (step, other) in steps.iter().filter(served).zip(others.iter().filter(served)) {
        match (&step.call, &other.call) {
            (Call::Draw(call), Call::Draw(other)) => {
                coverage.see("equal histories, other words of a draw", call.words[..4] != other.words[..4]);
                coverage.see("equal histories, other thresholds", call.cdt != other.cdt);
                coverage.see("equal histories, other limit", call.limit != other.limit);
            }
            (Call::Respond(call), Call::Respond(other)) => {
                let differ = call.words[..WORDS_ASKED] != other.words[..WORDS_ASKED];
                coverage.see("equal histories, other words of a response", differ);
                coverage.see("equal histories, other key", call.key != other.key);
                let blank = call.challenge.is_empty();
                coverage.see("equal histories, other key of a blank response", blank && call.key != other.key);
                coverage.see("equal histories, other noise", call.y != other.y);
                let other_tests = is_rejected_by_z1(call) != is_rejected_by_z1(other);
                coverage.see("equal histories, rejected by z1 alone and by other tests", other_tests);
            }
            _ => panic!("equal histories of calls of different kinds"),
        }
    }
}

/// Whether the values of z1 alone reject the response of a right call.
fn is_rejected_by_z1(call: &respond::Call) -> bool {
    respond::respond(call).response.is_some_and(|response| response.tests() == BY_Z1)
}

/// A list of calls, none of them refused, and what they gave.
struct Ran {
    origin: String,
    random: Random,
    history: History,
    opening: Opening,
    steps: Vec<Step>,
    given: Vec<Given>,
}

impl Ran {
    fn of(seed: u64) -> Ran {
        let origin = format!("BLISS_SEED={seed}");
        let mut random = Random::new(seed);
        let history = history(&mut random);
        let opening = opening_of(&mut random, &history);
        let steps = calls_of(&mut random, opening, &history, false);
        let given = steps::run(&mut random, &origin, opening, &steps);
        Ran { origin, random, history, opening, steps, given }
    }
}

/// The second half: a list of calls that agrees with another of its deviation at the places of the other's read list gives the same
/// answers, sessions, samples, responses and read list.
pub fn what_is_not_listed_decides_nothing(comparison: &Comparison) {
    let mut coverage = Coverage::default();
    for seed in run::seeds(20) {
        let Ran { origin, mut random, history, opening, steps, given } = Ran::of(seed);
        let pairs = steps.iter().zip(&given);
        let counterparts: Vec<Step> = pairs.map(|(step, given)| counterpart(&mut random, step, &given.entries)).collect();
        assert!(
            steps::run(&mut random, &origin, opening, &counterparts) == given,
            "{origin}: a place that is not listed decides"
        );
        comparison.count_pair();
        count_history(&mut coverage, opening, &history);
        for ((step, given), counterpart) in steps.iter().zip(&given).zip(&counterparts) {
            count_what_is_free(&mut coverage, step, given, counterpart);
        }
    }
    coverage.print("demand 3, agreement");
    coverage.require_what_is_counted();
    coverage.require(at_every_degree(&["draw", "response"]));
    coverage.require(at_every_deviation(&["draw"]));
}

/// What a call and its counterpart are lent that is not listed, and differs.
fn count_what_is_free(coverage: &mut Coverage, step: &Step, given: &Given, counterpart: &Step) {
    let read = listed(&given.entries, Kind::Word).len();
    let behind = |words: &[u64], others: &[u64]| read < words.len() && words[read..] != others[read..];
    match (&step.call, &counterpart.call) {
        (Call::Draw(call), Call::Draw(other)) => {
            coverage.see("words behind those that a draw read", behind(&call.words, &other.words));
            coverage.see("list of another length", call.list.len() != other.list.len());
        }
        (Call::Respond(call), Call::Respond(other)) => {
            coverage.see("words behind those that a response read", behind(&call.words, &other.words));
            coverage.see("another z before a response", call.z != other.z);
            let other_key = call.key.iter().zip(&other.key).all(|(value, other)| value != other);
            coverage.see("another key at every place of a blank response", call.challenge.is_empty() && other_key);
        }
        _ => panic!("a counterpart of another kind"),
    }
}

/// The second half is no empty one: another value at one listed place can change what the caller sees.
pub fn what_is_listed_can_decide(comparison: &Comparison) {
    let mut coverage = Coverage::default();
    for seed in run::seeds(40) {
        let Ran { origin, mut random, opening, steps, given, .. } = Ran::of(seed);
        for (at, step) in steps.iter().enumerate() {
            for kind in [Kind::Word, Kind::Cdt, Kind::Polynomial, Kind::Key] {
                let places = listed(&given[at].entries, kind);
                if !places.is_empty() {
                    let place = random.pick(&places);
                    let changed = [&steps[..at], &[different(&mut random, step, kind, place)]].concat();
                    let after = run_any(&mut random, &origin, opening, &changed);
                    count_decision(&mut coverage, step, (kind, place), &given[at], &after[at]);
                    comparison.count_pair();
                }
            }
        }
    }
    coverage.print("demand 3, difference");
    coverage.require_what_is_counted();
}

/// Whether another value at a place of this kind changed what is seen of a call that is still served. Another polynomial table is
/// always refused.
fn count_decision(coverage: &mut Coverage, step: &Step, (kind, place): (Kind, usize), given: &Given, after: &Given) {
    let call = match step.call {
        Call::Draw(_) => "draw",
        Call::Respond(_) => "response",
    };
    let served = after.seen.refusal == 0;
    let decides = given.seen != after.seen && (served || kind == Kind::Polynomial);
    let word = match (kind, place) {
        (Kind::Cdt, ..10) => ", a high word,",
        (Kind::Cdt, _) => ", a low word,",
        _ => "",
    };
    coverage.see(format!("{call}: a place of kind {}{word} decides", kind.number()), decides);
}
