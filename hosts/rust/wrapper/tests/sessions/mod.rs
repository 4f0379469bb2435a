//! Openings, and sessions that no opening hands back.

use crate::calls::{self, drawn_numbers, DEGREES, DEVIATIONS, FORGED_DEGREES, FORGED_DEVIATIONS};
use crate::comparison::Comparison;
use crate::coverage::{DRAW_REFUSALS, RESPOND_REFUSALS};
use crate::model::{draw, respond, Session, RESPONSE_DEVIATION};
use crate::random::Random;
use crate::run::DEFAULT_SEED;

/// The degree of what is lent to forged sessions.
const DEGREE: usize = 4;

/// Every small number as a degree and as a deviation, and numbers that a cut or a shift makes small.
pub fn openings_are_the_models(comparison: &Comparison) {
    for number in (0..5000).chain((0..64).flat_map(|shift| near_power(1 << shift))) {
        for deviation in every_deviation() {
            comparison.opening(number as usize, deviation);
        }
        for degree in every_degree() {
            comparison.opening(degree, number);
        }
    }
}

/// A power of two, a served degree and the served deviations above it, one below it, and its negative.
fn near_power(power: u64) -> impl Iterator<Item = u64> {
    let above = [0, 4].into_iter().chain(DEVIATIONS).map(move |number| power + number);
    above.chain([power - 1, power.wrapping_neg()])
}

fn every_degree() -> impl Iterator<Item = usize> {
    DEGREES.into_iter().chain(FORGED_DEGREES)
}

fn every_deviation() -> impl Iterator<Item = u64> {
    DEVIATIONS.into_iter().chain(FORGED_DEVIATIONS)
}

/// Each of these sessions on a draw and on a respond call that have all else right, and on such as are lent nothing.
pub fn forged_sessions_are_the_models(comparison: &Comparison) {
    let mut random = Random::new(DEFAULT_SEED);
    let draw = calls::draw::with_limit(&mut random, DEGREE, RESPONSE_DEVIATION, 2 * DEGREE);
    let respond = calls::respond::right(&mut random, DEGREE);
    for session in every_session() {
        let right = reasons(session);
        let lent_nothing = [&right[..], &[2]].concat();
        let draw = draw::Call { session, ..draw.clone() };
        for (call, reasons) in [(&calls::draw::with_nothing_lent(session, draw.limit), &lent_nothing), (&draw, &right)] {
            let origin = format!("draw, {} words, {session:?}", call.words.len());
            let drawn = comparison.draw(&origin, call);
            calls::assert_as_made(&origin, drawn.answer.refusal, reasons, &DRAW_REFUSALS);
        }
        let respond = respond::Call { session, ..respond.clone() };
        for (call, reasons) in [(&calls::respond::with_nothing_lent(session), &lent_nothing), (&respond, &right)] {
            let origin = format!("response, {} words, {session:?}", call.words.len());
            let responded = comparison.respond(&origin, call);
            calls::assert_as_made(&origin, responded.answer.refusal, reasons, &RESPOND_REFUSALS);
        }
    }
}

/// Sessions of a served degree and of forged ones, at every deviation and with every number for `drawn`.
fn every_session() -> impl Iterator<Item = Session> {
    let degrees = [DEGREE].into_iter().chain(FORGED_DEGREES);
    let pairs = degrees.flat_map(|degree| every_deviation().map(move |deviation| (degree, deviation)));
    pairs.flat_map(|(degree, deviation)| drawn_numbers().map(move |drawn| Session { degree, deviation, drawn }))
}

/// The refusals that such a session alone is a reason for.
fn reasons(session: Session) -> Vec<u32> {
    let Session { degree, deviation, drawn } = session;
    let reasons = [
        (1, !DEGREES.contains(&degree)),
        (16, !DEVIATIONS.contains(&deviation)),
        (17, deviation != RESPONSE_DEVIATION),
        (9, drawn != 1),
    ];
    reasons.into_iter().filter(|(_, applies)| *applies).map(|(refusal, _)| refusal).collect()
}
