//! Lists of calls with a given history, and what the archive gives for them.

use super::history::{accepted, Event, History};
use crate::archive;
use crate::calls;
use crate::calls::respond::{GREATEST_Y, GREATEST_Z1};
use crate::model::draw::Attempt;
use crate::model::{self, draw, respond, Session, POLYNOMIAL, RESPONSE_DEVIATION};
use crate::random::Random;

/// What a list of calls is opened with.
#[derive(Clone, Copy)]
pub struct Opening {
    pub degree: usize,
    pub deviation: u64,
}

#[derive(Clone)]
pub enum Call {
    Draw(draw::Call),
    Respond(respond::Call),
}

/// A call of a list. One that is to be refused lends a y of its own, the others the one that the list has in common.
#[derive(Clone)]
pub struct Step {
    pub call: Call,
    pub refused: bool,
}

/// What the caller sees of a call.
#[derive(Debug, PartialEq, Eq)]
pub struct Seen {
    pub refusal: u32,
    counts: [usize; 3],
    session: Session,
    pub y: Vec<i32>,
    z: Vec<i32>,
}

/// What a call gave: what the caller sees, and its part of the read list.
#[derive(Debug, PartialEq, Eq)]
pub struct Given {
    pub seen: Seen,
    pub entries: Vec<u32>,
}

/// Above this degree the noise is that of a host: the greatest samples would make too great a Z for any response to be accepted.
const GREATEST_EDGE_DEGREE: usize = 8;

/// How often secrets are chosen anew until they give an accept bit. Many times fewer are enough.
const TRIES: usize = 1000;

/// A list of calls with this history, from this opening, and with any secrets, tables and limits. With `refused`, calls that are
/// refused stand among them.
pub fn calls_of(random: &mut Random, opening: Opening, history: &History, refused: bool) -> Vec<Step> {
    let mut session = model::open(opening.degree, opening.deviation).1;
    let mut y = Vec::new();
    let mut steps = Vec::new();
    for (at, (_, event)) in history.iter().enumerate() {
        add_refused(random, opening, refused, &mut steps);
        let call = match event {
            Event::Draw { bits } => {
                let accepted_next = matches!(history.get(at + 1), Some((_, Event::Respond { bit: true, .. })));
                let (call, drawn) = draw_of(random, session, bits, accepted_next);
                (session, y) = (drawn.session, drawn.y);
                Call::Draw(call)
            }
            Event::Respond { challenge, bit } => {
                let (call, responded) = respond_of(random, session, &y, challenge, *bit);
                (session, y) = (responded.session, responded.y);
                Call::Respond(call)
            }
        };
        steps.push(Step { call, refused: false });
    }
    add_refused(random, opening, refused, &mut steps);
    steps
}

/// None, or some calls that are refused.
fn add_refused(random: &mut Random, opening: Opening, wanted: bool, steps: &mut Vec<Step>) {
    while wanted && random.one_in(3) {
        steps.push(Step { call: refused_call(random, opening), refused: true });
    }
}

/// A call that every session of this opening refuses, with any y.
fn refused_call(random: &mut Random, opening: Opening) -> Call {
    let Opening { degree, deviation } = opening;
    if random.one_in(2) {
        let mut call = calls::draw::right(random, degree);
        let refusal = random.pick(&[2, 3, 4, 5, 7, 8]);
        assert!(calls::draw::spoil(random, &mut call, refusal));
        Call::Draw(call)
    } else if deviation != RESPONSE_DEVIATION && random.one_in(2) {
        Call::Respond(calls::respond::right(random, degree))
    } else {
        let refusal = random.pick(&[2, 4, 6, 7, 8, 10, 11]);
        let mut call = calls::respond::right(random, degree);
        // A blank response has no room for refusal 6.
        while !calls::respond::spoil(random, &mut call, refusal) {
            call = calls::respond::right(random, degree);
        }
        Call::Respond(call)
    }
}

/// A draw with these accept bits. Where a response is to be accepted next, the samples that come to z1 pass with a key of 0.
fn draw_of(random: &mut Random, session: Session, bits: &[bool], accepted_next: bool) -> (draw::Call, draw::Drawn) {
    let Session { degree, deviation, .. } = session;
    let ordinary = degree > GREATEST_EDGE_DEGREE || random.one_in(3);
    let mut cdt = if ordinary { calls::draw::cdt_of(deviation) } else { calls::draw::cdt(random) };
    if accepted_next && draw::thresholds(&cdt)[8] == 0 {
        // Its base samples are 9 and 10, and so its samples 2,304 or more.
        cdt = calls::draw::cdt_of(deviation);
    }
    let thresholds = draw::thresholds(&cdt);
    let mut words = Vec::new();
    let mut samples = 0;
    for &bit in bits {
        let greatest = if accepted_next && samples < degree { GREATEST_Z1 } else { GREATEST_Y };
        words.extend(attempt_words(random, deviation, &thresholds, ordinary, bit, greatest));
        samples += usize::from(bit);
    }
    let full = accepted(bits) == 2 * degree;
    let limit = if full { (bits.len() + random.below(2 * degree)).min(32 * degree) } else { bits.len() };
    let mut call =
        draw::Call { session, limit, cdt, polynomial: POLYNOMIAL.to_vec(), words, y: vec![0; 2 * degree], list: Vec::new() };
    call.words.resize_with(draw::words_asked(limit) + random.below(3), || random.word());
    call.list.resize_with(draw::list_asked(limit) + random.below(3), || random.word() as u32);
    let drawn = draw::draw(&call);
    let given: Vec<bool> = drawn.attempts.iter().map(Attempt::accepted).collect();
    assert_eq!(given, bits, "a draw with other accept bits than were chosen");
    (call, drawn)
}

/// The words of an attempt with this accept bit, by which no greater sample is accepted than this.
fn attempt_words(
    random: &mut Random,
    deviation: u64,
    thresholds: &[u128; 10],
    ordinary: bool,
    bit: bool,
    greatest: i32,
) -> [u64; 4] {
    for _ in 0..TRIES {
        let words =
            if ordinary { [(); 4].map(|()| random.word()) } else { calls::draw::edge_words(random, deviation, thresholds, 2) };
        let attempt = Attempt::of(deviation, words, thresholds);
        if attempt.accepted() == bit && (!bit || attempt.sample().abs() <= greatest) {
            return words;
        }
    }
    panic!("no attempt has the accept bit {bit}");
}

fn respond_of(
    random: &mut Random,
    session: Session,
    y: &[i32],
    challenge: &[u32],
    bit: bool,
) -> (respond::Call, respond::Responded) {
    for _ in 0..TRIES {
        let mut call = calls::respond::over(random, session.degree, challenge, y);
        call.session = session;
        let responded = respond::respond(&call);
        assert_eq!(responded.answer.refusal, 0, "a response that is refused");
        if responded.answer.bit == bit {
            return (call, responded);
        }
    }
    panic!("no response has the bit {bit}");
}

/// Runs a list of calls on the archive, from an opening and with any y, each call being served or refused as it was made.
pub fn run(random: &mut Random, origin: &str, opening: Opening, steps: &[Step]) -> Vec<Given> {
    let given = run_any(random, origin, opening, steps);
    for (step, given) in steps.iter().zip(&given) {
        assert_eq!(given.seen.refusal != 0, step.refused, "{origin}: a call is served, or refused, against its making");
    }
    given
}

/// Runs a list of calls on the archive, from an opening and with any y.
pub fn run_any(random: &mut Random, origin: &str, opening: Opening, steps: &[Step]) -> Vec<Given> {
    let (_, mut session) = archive::open(opening.degree, opening.deviation);
    let mut y: Vec<i32> = (0..2 * opening.degree).map(|_| random.word() as i32).collect();
    let mut all = Vec::new();
    for step in steps {
        let given = run_one(origin, step, session, &y);
        session = given.seen.session;
        if given.seen.refusal == 0 {
            y.clone_from(&given.seen.y);
        }
        all.push(given);
    }
    all
}

fn run_one(origin: &str, step: &Step, session: Session, y: &[i32]) -> Given {
    match step.call.clone() {
        Call::Draw(mut call) => {
            call.session = session;
            if !step.refused {
                call.y = y.to_vec();
            }
            let archive::Drawn { answer, session, y, list } = archive::draw(&origin, &call);
            let draw::Answer { refusal, attempts, accepted, entries } = answer;
            let seen = Seen { refusal, counts: [attempts, accepted, entries], session, y, z: Vec::new() };
            Given { seen, entries: bliss_box::filled(&list, entries).to_vec() }
        }
        Call::Respond(mut call) => {
            call.session = session;
            if !step.refused {
                call.y = y.to_vec();
            }
            let archive::Responded { answer, session, y, z, list } = archive::respond(&origin, &call);
            let respond::Answer { refusal, bit, entries } = answer;
            let seen = Seen { refusal, counts: [usize::from(bit), 0, entries], session, y, z };
            Given { seen, entries: bliss_box::filled(&list, entries).to_vec() }
        }
    }
}
