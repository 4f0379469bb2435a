//! How a command ends: its exit status, and why it could not do what was asked.

use std::fmt;

use bliss_box::{CallError, Refusal};

/// The exit status of the program.
#[derive(Clone, Copy)]
pub enum Status {
    Served = 0,
    Refused = 1,
    Usage = 2,
    Unserved = 3,
}

impl Status {
    pub const ALL: [Status; 4] = [Status::Served, Status::Refused, Status::Usage, Status::Unserved];

    /// What the help and the manual page say of it.
    pub fn meaning(self) -> &'static str {
        match self {
            Status::Served => "served: a full draw, an accepted response, a key that passes, a record written or read",
            Status::Refused => "the box refused, a file or a value is bad, or the output could not be written",
            Status::Usage => "the command line is wrong",
            Status::Unserved => "the draw is spent, or every try of a response was rejected",
        }
    }
}

/// Why a command could not do what was asked.
#[derive(Debug)]
pub enum Failure {
    /// A refusal of the box, or what is wrong with a file or a value.
    Refused(String),
    /// What is wrong with the command line.
    Usage(String),
    /// The reader of standard output has gone away. It has seen enough, so nothing is said, but not all was delivered.
    Unread,
}

impl Failure {
    /// A failure at a place: a file, a line of it, an option or a value.
    pub fn at(place: impl fmt::Display, problem: impl fmt::Display) -> Failure {
        Failure::Refused(format!("{place}: {problem}"))
    }

    pub fn status(&self) -> Status {
        match self {
            Failure::Refused(_) | Failure::Unread => Status::Refused,
            Failure::Usage(_) => Status::Usage,
        }
    }

    /// What is said of it.
    pub fn problem(&self) -> Option<&str> {
        match self {
            Failure::Refused(problem) | Failure::Usage(problem) => Some(problem),
            Failure::Unread => None,
        }
    }
}

impl<T> From<CallError<T>> for Failure {
    fn from(error: CallError<T>) -> Failure {
        Failure::Refused(error.to_string())
    }
}

impl From<Refusal> for Failure {
    fn from(refusal: Refusal) -> Failure {
        Failure::Refused(refusal.to_string())
    }
}
