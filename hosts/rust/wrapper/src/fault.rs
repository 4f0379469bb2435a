//! What a host looks for after a call that is served. The box is proved as it is written; a processor that skips an instruction, or a
//! random source that failed unnoticed, is outside of the proof.

use core::error;
use core::fmt;

use crate::{Entry, Kind};

/// A call that is served and left what it can't have left.
#[derive(Clone, Copy, Debug, PartialEq, Eq, Hash)]
#[non_exhaustive]
pub enum Fault {
    /// The noise of a full draw is all zero, which has a chance below 2^-72. A response with it gives the key away: z is then the
    /// product of key and challenge alone.
    ZeroNoise,
    /// The read list has another length, beginning or end than its answer says.
    List,
}

impl fmt::Display for Fault {
    fn fmt(&self, f: &mut fmt::Formatter) -> fmt::Result {
        f.write_str(match self {
            Fault::ZeroNoise => "fault: the noise that was drawn is all zero, as from words that are not random",
            Fault::List => "fault: the read list does not fit its answer",
        })
    }
}

impl error::Error for Fault {}

/// Whether a filled part, which is whole or not, has this kind and place at its beginning and these at its end.
pub(crate) fn check_list(is_whole: bool, filled: &[u32], first: (Kind, usize), last: (Kind, usize)) -> Result<(), Fault> {
    let is_at = |(kind, place), entry: u32| Entry(entry).kind() == Some(kind) && Entry(entry).place() == place;
    match filled {
        [begin, .., end] if is_whole && is_at(first, *begin) && is_at(last, *end) => Ok(()),
        _ => Err(Fault::List),
    }
}
