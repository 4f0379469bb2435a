//! Document 01's exponential, draw and respond, and document 02's key check and records, as plain Rust for speed: what the box
//! answers, writes, lists and refuses. Each is written once, those with products of 128 bits over the form of these; records are
//! written and read in two ways.

mod draw;
mod exponential;
mod key_check;
mod product;
mod read_list;
pub mod record;
mod refusals;
mod respond;
mod words;

pub use draw::draw;
pub use exponential::{exponential_or_refusal, LIMIT};
pub use key_check::check_key;
pub use product::{HighWord, Product, Shifted};
pub use respond::respond;
