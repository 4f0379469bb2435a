//! The archive's calls, on copies of what a call lends, each between guards. What they must leave alone is compared here: what
//! is lent for reading, and the memory around every buffer.

mod draw;
mod key_check;
mod record;
mod respond;

use std::fmt::{Debug, Display};

use bliss_box::raw;

use crate::comparison::same;
use crate::lent::Lent;
use crate::model::Session;

pub use draw::{draw, Drawn};
pub use key_check::check_key;
pub use record::{read_record, write_record};
pub use respond::{respond, Responded};

fn given(session: Session) -> raw::Session {
    let Session { degree, deviation, drawn } = session;
    raw::Session { degree, deviation, drawn }
}

fn handed_back(session: raw::Session) -> Session {
    let raw::Session { degree, deviation, drawn } = session;
    Session { degree, deviation, drawn }
}

fn guarded<T: Copy + PartialEq + From<u8>>(origin: &dyn Display, name: &str, lent: &Lent<T>) {
    same(origin, &format!("the memory around {name}"), &[lent.guards_stand()], &[true]);
}

fn untouched<T: Copy + PartialEq + From<u8> + Debug>(origin: &dyn Display, name: &str, lent: &Lent<T>, content: &[T]) {
    same(origin, name, lent.content(), content);
    guarded(origin, name, lent);
}

pub fn open(n: usize, deviation: u64) -> (u32, Session) {
    // SAFETY: the call takes any numbers and no pointer.
    let opened = unsafe { raw::bliss_open(n, deviation) };
    (opened.refusal, handed_back(opened.session))
}
