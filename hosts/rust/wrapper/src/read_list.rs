//! Read lists: their filled part, and their entries.

use alloc::format;
use core::fmt;

use crate::raw;

/// The filled part of a list that `count` entries were written to: the list's own first entries. A count over the list's
/// length gets the empty part.
#[must_use]
pub fn filled(list: &[u32], count: usize) -> &[u32] {
    // SAFETY: pointer and length are those of one slice, which is borrowed for longer than the call.
    let length = unsafe { raw::bliss_filled(list.as_ptr(), list.len(), count) };
    &list[..length]
}

/// Makes [`Kind`] of lines that each say all there is of a kind: document 01's number, the name, and what the place of an entry is.
macro_rules! kinds {
    ($($number:literal $name:ident: $place:literal,)*) => {
        /// The kind of an entry: what its place is.
        ///
        /// The list of a draw begins with [`Kind::Draw`] and ends with [`Kind::Accepted`]; each attempt ends with
        /// [`Kind::AcceptedBefore`]. The list of a response begins with [`Kind::Response`] and ends with [`Kind::Bit`].
        #[derive(Clone, Copy, Debug, PartialEq, Eq, Hash)]
        pub enum Kind {
            $(#[doc = $place] $name = $number,)*
        }

        impl Kind {
            /// In the order of their numbers.
            pub const ALL: [Kind; [$($number),*].len()] = [$(Kind::$name),*];
        }

        impl fmt::Display for Kind {
            fn fmt(&self, f: &mut fmt::Formatter) -> fmt::Result {
                f.write_str(match self {
                    $(Kind::$name => $place,)*
                })
            }
        }
    };
}

kinds! {
    1 Draw: "the degree of the draw",
    2 Word: "the place of a random word that was read",
    3 Cdt: "the place of a word of the CDT, the table of thresholds, that was read",
    4 Polynomial: "the place of a word of the polynomial table that was read",
    5 AcceptedBefore: "the samples accepted before an attempt",
    6 Accepted: "the samples accepted in all",
    7 Response: "the degree of the response",
    8 Key: "the place of a key value that was read",
    9 Bit: "the bit: whether the response was accepted",
}

impl Kind {
    /// Document 01's number of this kind.
    #[inline]
    #[must_use]
    pub const fn number(self) -> u32 {
        self as u32
    }
}

/// An entry of a read list: kind × 2^24 + place.
///
/// ```
/// use bliss_box::{Entry, Kind};
///
/// let entry = Entry((8 << 24) + 3);
/// assert_eq!(entry, Entry::new(Kind::Key, 3));
/// assert_eq!((entry.kind(), entry.place()), (Some(Kind::Key), 3));
/// ```
#[derive(Clone, Copy, Debug, PartialEq, Eq, Hash)]
pub struct Entry(pub u32);

impl Entry {
    const PLACES: u32 = 1 << 24;

    /// The entry of a kind and a place, which must be below 2^24, as every place of the box is.
    #[inline]
    #[must_use]
    pub const fn new(kind: Kind, place: usize) -> Entry {
        Entry(kind.number() * Entry::PLACES + place as u32)
    }

    /// The kind, or none where the number is no kind: such an entry is not the box's.
    #[must_use]
    pub fn kind(self) -> Option<Kind> {
        Kind::ALL.into_iter().find(|kind| kind.number() == self.0 / Entry::PLACES)
    }

    /// The place, which is below 2^24. What it is, the kind tells.
    #[must_use]
    pub const fn place(self) -> usize {
        (self.0 % Entry::PLACES) as usize
    }
}

impl fmt::Display for Entry {
    fn fmt(&self, f: &mut fmt::Formatter) -> fmt::Result {
        f.pad(&format!("({}, {})", self.0 / Entry::PLACES, self.place()))
    }
}
