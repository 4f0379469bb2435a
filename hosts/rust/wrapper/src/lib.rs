//! The BLISS-I sampling box for a Rust host. It draws the noise vector y of a signature from random words that the host
//! supplies, turns y, a key and a challenge into a response or a rejection, and lists what it reads of words, tables and key
//! after its checks. Before a key goes into a box, it tells whether the key can always sign; and it stores signatures as bytes
//! ([`Record`]). For bench work it hands the noise itself back ([`Noise::respond_blank`]). Noise is drawn with one of four deviations
//! ([`Deviation`]); responses are BLISS-I's, with noise of 215. Documents 01 and 02 are the definition of the box;
//! docs/SPECIFICATION.md has its rules, and what is listed.
//!
//! ```
//! use bliss_box::{check_key, draw_limit, draw_word_count, Deviation, OwnedDraw, Record, Secret, Session};
//! use bliss_box::{POLYNOMIAL, RESPOND_WORDS};
//!
//! // Making keys and challenges is the host's. A key is s1 and then s2, a challenge its positions in ascending order.
//! let key = Secret::from(vec![1; 1024]);
//! let challenge = [3, 141, 500];
//! check_key(512, &key, challenge.len())?; // once, before its first response: a key that is refused goes into no box
//!
//! let deviation = Deviation::D215; // BLISS-I's
//! let limit = draw_limit(512, deviation);
//! let mut session = Session::open(512, deviation)?;
//! let z = loop {
//!     let words = Secret::system_words(draw_word_count(limit))?;
//!     let noise = match session.draw_owned(limit, deviation.cdt(), &POLYNOMIAL, words)? {
//!         OwnedDraw::Full(noise) => noise,
//!         OwnedDraw::Spent(spent) => {
//!             session = spent.session; // all but never
//!             continue;
//!         }
//!     };
//!     // In a signature the challenge hashes the message and what `noise.samples()` commits to.
//!     let words = Secret::system_words(RESPOND_WORDS)?;
//!     let responded = noise.respond(&challenge, &POLYNOMIAL, words, &key)?;
//!     if let Some(z) = responded.z {
//!         break z;
//!     }
//!     session = responded.session; // rejected: the next try has new noise, and so another challenge
//! };
//!
//! // What a file holds of the signature is chosen here; a host that rounds z2 stores what it has made of it.
//! let record = Record { degree: 512, challenge: Some(challenge.into()), z1: Some(z[..512].into()), z2: Some(z[512..].into()) };
//! let bytes = record.to_bytes()?;
//! assert_eq!(Record::from_bytes(&bytes)?, record);
//! # Ok::<(), Box<dyn std::error::Error>>(())
//! ```
//!
//! [`Session::draw_owned`] and [`Noise::respond`] take words and noise by value, so that none is used twice, wipe them, and look for
//! faults in what a call left ([`Fault`]). [`Session::draw`] and [`Session::respond`] use memory that the host lends, and leave this to
//! the host: [`Counts::check`] and [`Outcome::check`] look for the same faults.
//!
//! The crate needs `core` and an allocator. Its feature `std`, which is on by default, brings `Secret::system_words`, the words of
//! the system's random source; without it a host takes its words from elsewhere.
//!
//! The archive is linked from the repository's `target/staticlib`, where `scripts/archive` writes it, or from the folder
//! that the environment variable `BLISS_BOX_LIB_DIR` names when the crate is built.

#![no_std]
#![deny(missing_docs, missing_debug_implementations, unsafe_op_in_unsafe_fn)]
#![deny(clippy::undocumented_unsafe_blocks)]

extern crate alloc;
#[cfg(feature = "std")]
extern crate std;

mod cdt;
mod deviation;
mod draw;
mod exponential;
mod fault;
mod key_check;
mod owned;
pub mod raw;
mod read_list;
mod record;
mod refusal;
mod respond;
mod secret;
mod session;
mod tables;
mod version;

pub use cdt::cdt;
pub use deviation::Deviation;
pub use draw::{draw_limit, draw_list_length, draw_word_count, sample_count, Counts, Drawn};
pub use exponential::exponential;
pub use fault::Fault;
pub use key_check::{check_key, KeyCheck, KEY_SUM_LIMIT};
pub use owned::{CallError, Noise, OwnedDraw, OwnedResponse, Spent};
pub use read_list::{filled, Entry, Kind};
pub use record::{packed_length, record_length_limit, Record, VALUE_LIMIT};
pub use refusal::Refusal;
pub use respond::{challenge_limit, respond_list_length, Outcome, Responded, COEFFICIENT_LIMIT, RESPOND_WORDS};
pub use secret::Secret;
pub use session::Session;
pub use tables::{thresholds, CDT, POLYNOMIAL};

// The bound of a secret's values, for a host that has to name it and has no zeroize of its own.
pub use zeroize::DefaultIsZeroes;
