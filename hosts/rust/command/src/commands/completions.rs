//! `bliss-box completions`: prints what a shell completes the command line by.

use clap::{Args, CommandFactory};
use clap_complete::Shell;

use crate::ending::{Failure, Status};
use crate::output;
use crate::program::Program;

/// Prints a script by which a shell completes commands and options.
///
/// In bash, source <(bliss-box completions bash) makes it known to the shell that runs.
#[derive(Args)]
pub struct Completions {
    /// The shell
    #[arg(value_enum)]
    shell: Shell,
}

impl Completions {
    pub fn run(&self) -> Result<Status, Failure> {
        let mut script = Vec::new();
        clap_complete::generate(self.shell, &mut Program::command(), "bliss-box", &mut script);
        output::print(script)?;
        Ok(Status::Served)
    }
}
