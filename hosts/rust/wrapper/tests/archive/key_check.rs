//! The key check.

use std::fmt::Display;

use bliss_box::raw;

use super::untouched;
use crate::lent::Lent;
use crate::model::key_check::{Answer, Call};

pub fn check_key(origin: &dyn Display, call: &Call) -> Answer {
    let mut key = Lent::new(&call.key);
    // SAFETY: the pointer is valid for its length.
    let raw::KeyCheck { refusal, sum } = unsafe { raw::bliss_check_key(call.n, key.as_mut_ptr(), key.len(), call.length) };
    untouched(origin, "the key", &key, &call.key);
    Answer { refusal, sum }
}
