//! The calls that own their memory.

mod draw;
mod respond;

use bliss_box::{Deviation, Noise, OwnedDraw, Secret, POLYNOMIAL};

use crate::{open_at, LIMIT};

pub const KEY: [i32; 8] = [1, 2, 3, 4, -1, 0, 7, -7];

/// Words that accept every sample, of sizes 0 to 255 and both signs.
fn accepting_words() -> Vec<u64> {
    (0..LIMIT as u64).flat_map(|t| [0, 0, 257 * (t + 1), 0]).collect()
}

fn noise_at(deviation: Deviation) -> Noise {
    match open_at(deviation).draw_owned(LIMIT, deviation.cdt(), &POLYNOMIAL, Secret::from(accepting_words())) {
        Ok(OwnedDraw::Full(noise)) => noise,
        other => panic!("{other:?}"),
    }
}

/// Noise to respond with.
pub fn noise() -> Noise {
    noise_at(Deviation::D215)
}
