//! The commands of the program. Each has a file here, with its arguments, whose comments are its help, and its `run`; a variant of
//! [`Command`]; and a line in [`Command::run`]. Help, completions and manual page are made from the variants.

mod check_key;
mod completions;
mod demo;
mod draw;
mod exp;
mod list;
mod manual;
mod record;
mod respond;

use clap::Subcommand;

use crate::ending::{Failure, Status};

#[derive(Subcommand)]
pub enum Command {
    Draw(draw::Draw),
    Respond(respond::Respond),
    CheckKey(check_key::CheckKey),
    Record(record::Record),
    Exp(exp::Exp),
    List(list::List),
    Demo(demo::Demo),
    Completions(completions::Completions),
    Manual(manual::Manual),
}

impl Command {
    pub fn run(&self) -> Result<Status, Failure> {
        match self {
            Command::Draw(draw) => draw.run(),
            Command::Respond(respond) => respond.run(),
            Command::CheckKey(check_key) => check_key.run(),
            Command::Record(record) => record.run(),
            Command::Exp(exp) => exp.run(),
            Command::List(list) => list.run(),
            Command::Demo(demo) => demo.run(),
            Command::Completions(completions) => completions.run(),
            Command::Manual(manual) => manual.run(),
        }
    }
}
