//! Responses that are accepted, to a challenge of BLISS-I's length.

use bliss_box::{respond_list_length, sample_count, Deviation, Outcome, Refusal, Session, POLYNOMIAL, RESPOND_WORDS};

use crate::baseline::{self, HighWord, Product, Shifted};
use crate::draw::Draw;
use crate::random::Random;
use crate::rounds::{timed, Call, Side};

/// BLISS-I's number of positions.
pub const POSITIONS: usize = 23;

/// Positions that are spread evenly.
pub fn challenge(n: usize) -> Vec<u32> {
    (0..POSITIONS).map(|k| (k * n / POSITIONS) as u32).collect()
}

/// What a response is lent, with the draw that makes its y.
pub struct Respond {
    draw: Draw,
    challenge: Vec<u32>,
    polynomial: [u64; 21],
    words: Vec<u64>,
    key: Vec<i32>,
    z: Vec<i32>,
    list: Vec<u32>,
}

impl Respond {
    /// A key of small values, and words of 0, which pass both tests of a word.
    pub fn new(n: usize) -> Respond {
        let mut random = Random::new(n as u64);
        Respond {
            draw: Draw::new(n, Deviation::D215),
            challenge: challenge(n),
            polynomial: POLYNOMIAL,
            words: vec![0; RESPOND_WORDS],
            key: (0..sample_count(n)).map(|_| random.pick(&[-1, 0, 1])).collect(),
            z: vec![0; sample_count(n)],
            list: vec![0; respond_list_length(n, POSITIONS)],
        }
    }

    fn by_box(&mut self, session: Session) -> Result<Outcome, Refusal> {
        let Respond { draw, challenge, polynomial, words, key, z, list } = self;
        session.respond(challenge, polynomial, words, key, &mut draw.y, z, list).answer
    }

    fn by_baseline<P: Product>(&mut self, session: Session) -> Result<Outcome, Refusal> {
        let Respond { draw, challenge, polynomial, words, key, z, list } = self;
        baseline::respond::<P>(&session, challenge, polynomial, words, key, &mut draw.y, z, list)
    }

    /// Every side responds with noise that the box has just drawn. The draw is not timed.
    fn timed(&mut self, side: Side) -> (f64, Outcome) {
        let session = self.draw.by_box().session;
        let (nanoseconds, answer) = match side {
            Side::Box => timed(|| self.by_box(session)),
            Side::Plain => timed(|| self.by_baseline::<Shifted>(session)),
            Side::Fastest => timed(|| self.by_baseline::<HighWord>(session)),
        };
        (nanoseconds, answer.expect("a response that is served"))
    }

    pub fn degree(&self) -> usize {
        self.draw.n
    }

    /// How often a response reads the key.
    pub fn key_reads(&self) -> usize {
        self.key.len() * self.challenge.len()
    }
}

impl Call for Respond {
    type Left = (Outcome, Vec<i32>, Vec<i32>, Vec<u32>);

    fn name(&self) -> String {
        format!("respond, n = {}", self.degree())
    }

    fn nanoseconds(&mut self, side: Side) -> f64 {
        self.timed(side).0
    }

    fn left(&mut self, side: Side) -> Self::Left {
        self.z.fill(i32::MIN);
        self.list.fill(u32::MAX);
        let (_, outcome) = self.timed(side);
        assert!(outcome.bit, "{}: the response is accepted", self.name());
        (outcome, self.draw.y.clone(), self.z.clone(), self.list.clone())
    }
}
