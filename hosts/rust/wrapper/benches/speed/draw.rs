//! Draws, each with the CDT of its deviation.

use bliss_box::{draw_limit, draw_list_length, draw_word_count, sample_count};
use bliss_box::{Counts, Deviation, Drawn, Refusal, Session, POLYNOMIAL};

use crate::baseline::{self, HighWord, Product, Shifted};
use crate::random::Random;
use crate::rounds::{timed, Call, Side};

/// What a draw is lent.
pub struct Draw {
    pub n: usize,
    pub deviation: Deviation,
    limit: usize,
    cdt: [u64; 20],
    polynomial: [u64; 21],
    words: Vec<u64>,
    pub y: Vec<i32>,
    list: Vec<u32>,
}

impl Draw {
    pub fn new(n: usize, deviation: Deviation) -> Draw {
        Draw::by_seed(n, deviation, n as u64)
    }

    pub fn by_seed(n: usize, deviation: Deviation, seed: u64) -> Draw {
        let limit = draw_limit(n, deviation);
        let mut random = Random::new(seed);
        Draw {
            n,
            deviation,
            limit,
            cdt: *deviation.cdt(),
            polynomial: POLYNOMIAL,
            words: (0..draw_word_count(limit)).map(|_| random.word()).collect(),
            y: vec![0; sample_count(n)],
            list: vec![0; draw_list_length(limit)],
        }
    }

    fn session(&self) -> Session {
        Session::open(self.n, self.deviation).expect("a degree")
    }

    pub fn by_box(&mut self) -> Drawn {
        let session = self.session();
        let Draw { limit, cdt, polynomial, words, y, list, .. } = self;
        session.draw(*limit, cdt, polynomial, words, y, list)
    }

    fn by_baseline<P: Product>(&mut self) -> Result<Counts, Refusal> {
        let session = self.session();
        let Draw { limit, cdt, polynomial, words, y, list, .. } = self;
        baseline::draw::<P>(&session, *limit, cdt, polynomial, words, y, list)
    }

    fn timed(&mut self, side: Side) -> (f64, Counts) {
        let (nanoseconds, answer) = match side {
            Side::Box => timed(|| self.by_box().answer),
            Side::Plain => timed(|| self.by_baseline::<Shifted>()),
            Side::Fastest => timed(|| self.by_baseline::<HighWord>()),
        };
        (nanoseconds, answer.expect("a draw that is served"))
    }

    pub fn attempts(&mut self) -> usize {
        self.timed(Side::Box).1.attempts
    }
}

impl Call for Draw {
    type Left = (Counts, Vec<i32>, Vec<u32>);

    fn name(&self) -> String {
        format!("draw, n = {}, deviation {}", self.n, self.deviation)
    }

    fn nanoseconds(&mut self, side: Side) -> f64 {
        self.timed(side).0
    }

    fn left(&mut self, side: Side) -> Self::Left {
        self.y.fill(i32::MIN);
        self.list.fill(u32::MAX);
        let (_, counts) = self.timed(side);
        (counts, self.y.clone(), self.list.clone())
    }
}
