//! The response.

use std::fmt::Display;

use bliss_box::raw;

use super::{given, guarded, handed_back, untouched};
use crate::lent::Lent;
use crate::model::respond::{Answer, Call};
use crate::model::Session;

/// What the archive gave and left for a respond call.
#[derive(Debug, PartialEq, Eq)]
pub struct Responded {
    pub answer: Answer,
    pub session: Session,
    pub y: Vec<i32>,
    pub z: Vec<i32>,
    pub list: Vec<u32>,
}

pub fn respond(origin: &dyn Display, call: &Call) -> Responded {
    let mut challenge = Lent::new(&call.challenge);
    let mut polynomial = Lent::new(&call.polynomial);
    let mut words = Lent::new(&call.words);
    let mut key = Lent::new(&call.key);
    let mut y = Lent::new(&call.y);
    let mut z = Lent::new(&call.z);
    let mut list = Lent::new(&call.list);
    // SAFETY: each pointer is valid for its length, and the seven buffers are allocated apart from each other.
    let responded = unsafe {
        raw::bliss_respond(
            given(call.session),
            challenge.as_mut_ptr(),
            challenge.len(),
            polynomial.as_mut_ptr(),
            polynomial.len(),
            words.as_mut_ptr(),
            words.len(),
            key.as_mut_ptr(),
            key.len(),
            y.as_mut_ptr(),
            y.len(),
            z.as_mut_ptr(),
            z.len(),
            list.as_mut_ptr(),
            list.len(),
        )
    };
    untouched(origin, "the challenge", &challenge, &call.challenge);
    untouched(origin, "the polynomial table", &polynomial, &call.polynomial);
    untouched(origin, "the words", &words, &call.words);
    untouched(origin, "the key", &key, &call.key);
    guarded(origin, "y", &y);
    guarded(origin, "z", &z);
    guarded(origin, "the list", &list);
    let raw::RespondAnswer { refusal, bit, entries } = responded.answer;
    Responded {
        answer: Answer { refusal, bit, entries },
        session: handed_back(responded.session),
        y: y.content().to_vec(),
        z: z.content().to_vec(),
        list: list.content().to_vec(),
    }
}
