//! `bliss-box record lengths`: prints the packed lengths of values.

use bliss_box::packed_length;
use clap::Args;

use crate::ending::{Failure, Status};
use crate::output;

/// Prints how many bits a value of z1 or z2 takes in a record.
///
/// The size of a value is the value without its sign. A line has the sizes that take the same number of bits, and this number: it is
/// that of the table by which the box writes and reads records.
#[derive(Args)]
pub struct Lengths {}

impl Lengths {
    pub fn run(&self) -> Result<Status, Failure> {
        let lengths: Vec<usize> = (0..).map_while(packed_length).collect();
        let mut text = String::new();
        let mut first = 0;
        for same in lengths.chunk_by(|length, next| length == next) {
            let last = first + same.len() - 1;
            text += &format!("sizes {first} to {last}: {} bits\n", same[0]);
            first = last + 1;
        }
        output::print(text)?;
        Ok(Status::Served)
    }
}
