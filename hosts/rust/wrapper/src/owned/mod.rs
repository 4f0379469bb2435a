//! Calls that take words and noise by value and hand back memory of their own. A word and a noise vector are used once, and wiped:
//! two responses with one y give the key away. A response is a method of the noise that it uses, so that none can be asked for without
//! noise, or with that of another session. What a host should look for after a call is looked for here.

mod draw;
mod respond;
#[cfg(test)]
mod tests;

use core::error;
use core::fmt;

use crate::{Fault, Refusal};

pub use draw::{Noise, OwnedDraw, Spent};
pub use respond::OwnedResponse;

/// Why an owned call gave nothing.
#[derive(Debug)]
#[non_exhaustive]
pub enum CallError<T> {
    /// The call was refused. What it took is handed back as it was, but for the words, which are wiped.
    Refused(Refusal, T),
    /// The call was served, and what it left can't be right. All of it is wiped.
    Fault(Fault),
}

impl<T> fmt::Display for CallError<T> {
    fn fmt(&self, f: &mut fmt::Formatter) -> fmt::Result {
        match self {
            CallError::Refused(refusal, _) => refusal.fmt(f),
            CallError::Fault(fault) => fault.fmt(f),
        }
    }
}

impl<T: fmt::Debug> error::Error for CallError<T> {}

impl<T> From<Fault> for CallError<T> {
    fn from(fault: Fault) -> CallError<T> {
        CallError::Fault(fault)
    }
}
