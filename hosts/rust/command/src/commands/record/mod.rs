//! `bliss-box record`: signatures in the bytes in which they are stored.

mod lengths;
mod read;
mod write;

use clap::{Args, Subcommand};

use crate::ending::{Failure, Status};

/// Writes and reads the records of signatures.
///
/// A record holds a signature, or a part of one, in few bytes: the degree, and a challenge, z1 and z2, each of them or not. What is
/// the same has the same bytes, and bytes that are not just what would be written are no record.
///
/// A record proves nothing of its signature: any numbers that are in range can be stored.
#[derive(Args)]
#[command(arg_required_else_help = false, disable_help_subcommand = true)]
pub struct Record {
    #[command(subcommand)]
    command: Command,
}

#[derive(Subcommand)]
enum Command {
    Write(write::Write),
    Read(read::Read),
    Lengths(lengths::Lengths),
}

impl Record {
    pub fn run(&self) -> Result<Status, Failure> {
        match &self.command {
            Command::Write(write) => write.run(),
            Command::Read(read) => read.run(),
            Command::Lengths(lengths) => lengths.run(),
        }
    }
}
