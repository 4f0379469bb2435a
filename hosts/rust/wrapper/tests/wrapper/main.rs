//! The safe library: what its calls hand back, served, refused and at fault.

mod deviation;
mod draw;
mod draw_limit;
mod exponential;
mod faults;
mod key_check;
mod open;
mod owned;
mod read_list;
mod record;
mod refusal;
mod respond;
mod secret;
mod tables;

use bliss_box::{Deviation, Session};

const DEGREES: [usize; 9] = [4, 8, 16, 32, 64, 128, 256, 512, 1024];

/// The degree of what is called here, and the least limit of its draws.
const N: usize = 4;
const LIMIT: usize = 2 * N;

fn open_at(deviation: Deviation) -> Session {
    Session::open(N, deviation).unwrap()
}

/// A session that can respond.
fn open() -> Session {
    open_at(Deviation::D215)
}
