//! The draw.

use std::fmt::Display;

use bliss_box::raw;

use super::{given, guarded, handed_back, untouched};
use crate::lent::Lent;
use crate::model::draw::{Answer, Call};
use crate::model::Session;

/// What the archive gave and left for a draw.
#[derive(Debug, PartialEq, Eq)]
pub struct Drawn {
    pub answer: Answer,
    pub session: Session,
    pub y: Vec<i32>,
    pub list: Vec<u32>,
}

pub fn draw(origin: &dyn Display, call: &Call) -> Drawn {
    let mut cdt = Lent::new(&call.cdt);
    let mut polynomial = Lent::new(&call.polynomial);
    let mut words = Lent::new(&call.words);
    let mut y = Lent::new(&call.y);
    let mut list = Lent::new(&call.list);
    // SAFETY: each pointer is valid for its length, and the five buffers are allocated apart from each other.
    let drawn = unsafe {
        raw::bliss_draw(
            given(call.session),
            call.limit,
            cdt.as_mut_ptr(),
            cdt.len(),
            polynomial.as_mut_ptr(),
            polynomial.len(),
            words.as_mut_ptr(),
            words.len(),
            y.as_mut_ptr(),
            y.len(),
            list.as_mut_ptr(),
            list.len(),
        )
    };
    untouched(origin, "the CDT table", &cdt, &call.cdt);
    untouched(origin, "the polynomial table", &polynomial, &call.polynomial);
    untouched(origin, "the words", &words, &call.words);
    guarded(origin, "y", &y);
    guarded(origin, "the list", &list);
    let raw::DrawAnswer { refusal, attempts, accepted, entries } = drawn.answer;
    Drawn {
        answer: Answer { refusal, attempts, accepted, entries },
        session: handed_back(drawn.session),
        y: y.content().to_vec(),
        list: list.content().to_vec(),
    }
}
