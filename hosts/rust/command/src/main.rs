//! The command-line program bliss-box: draws noise and answers challenges from files, checks keys, writes and reads records,
//! prints the exponential, explains read lists, and shows a draw and a response.

mod arguments;
mod command_line;
mod commands;
mod drawing;
mod ending;
mod files;
mod numbers;
mod output;
mod picture;
mod program;
mod refused;
mod version;
mod words;

use std::process::ExitCode;

use ending::{Failure, Status};

fn main() -> ExitCode {
    let status = run().unwrap_or_else(|failure| {
        if let Some(problem) = failure.problem() {
            output::say(&format!("bliss-box: {problem}"));
        }
        failure.status()
    });
    ExitCode::from(status as u8)
}

fn run() -> Result<Status, Failure> {
    output::check()?;
    match command_line::read()? {
        Some(command) => command.run(),
        None => Ok(Status::Served),
    }
}
