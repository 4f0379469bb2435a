//! Entries as a list holds them.

use bliss_box::{Entry, Kind};

pub fn entry(kind: Kind, place: usize) -> u32 {
    Entry::new(kind, place).0
}

/// Lists a place of one kind after the other, as many as the part of the list has entries.
pub fn list_places(part: &mut [u32], kind: Kind, places: impl Iterator<Item = usize>) {
    for (listed, place) in part.iter_mut().zip(places) {
        *listed = entry(kind, place);
    }
}

/// Lists the reads of one exponential: the polynomial table from its last entry on.
pub fn list_polynomial(part: &mut [u32]) {
    list_places(part, Kind::Polynomial, (0..21).rev());
}
