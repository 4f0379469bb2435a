//! The command line: which command it asks for, and what is wrong with it.

use std::any::Any;
use std::env;

use clap::error::ErrorKind;
use clap::{ArgMatches, CommandFactory, FromArgMatches};

use crate::arguments::name;
use crate::commands::Command;
use crate::ending::Failure;
use crate::files::{same_file, InputPath, OutputPath};
use crate::output;
use crate::program::Program;

/// The longest line of a help text.
const COLUMNS: usize = 100;

/// The command that is asked for. There is none where it is help or the version, which is printed.
pub fn read() -> Result<Option<Command>, Failure> {
    let mut program = Program::command();
    let matches = match program.try_get_matches_from_mut(env::args_os()) {
        Err(text) if !text.use_stderr() => {
            output::print(wrapped(&text.to_string()))?;
            return Ok(None);
        }
        matches => matches?,
    };
    check_files(&mut program, &matches)?;
    Ok(Some(Program::from_arg_matches(&matches)?.command))
}

/// Looks at the files of a command line. Standard input and output can be one file each, and no file is both read and written.
fn check_files(program: &mut clap::Command, matches: &ArgMatches) -> Result<(), Failure> {
    let (mut command, mut matches) = (program, matches);
    while let Some((name, below)) = matches.subcommand() {
        command = command.find_subcommand_mut(name).expect("another command is an error");
        matches = below;
    }
    let (inputs, outputs) = (given::<InputPath>(command, matches), given::<OutputPath>(command, matches));
    for (stream, files) in [
        ("input", inputs.iter().filter(|(_, path)| path.is_standard()).count()),
        ("output", outputs.iter().filter(|(_, path)| path.is_standard()).count()),
    ] {
        if files > 1 {
            let problem = format!("standard {stream} can be one file alone");
            return Err(command.error(ErrorKind::ArgumentConflict, problem).into());
        }
    }
    same_file::check(&inputs, &outputs)
}

/// The values of a type on a command line, each with the name of its argument.
fn given<'a, T: Any + Clone + Send + Sync>(command: &clap::Command, matches: &'a ArgMatches) -> Vec<(String, &'a T)> {
    let mut given = Vec::new();
    for argument in command.get_arguments() {
        // An argument of another type is an error.
        let values = matches.try_get_many(argument.get_id().as_str()).unwrap_or_default();
        given.extend(values.into_iter().flatten().map(|value| (name(argument), value)));
    }
    given
}

impl From<clap::Error> for Failure {
    /// A bad value is said as a bad value in a file is. Any other error is that of a wrong command line.
    fn from(error: clap::Error) -> Failure {
        let text = error.to_string();
        let text = text.strip_prefix("error: ").unwrap_or(&text).trim_end().to_owned();
        match error.kind() {
            ErrorKind::ValueValidation => Failure::Refused(text),
            _ => Failure::Usage(text),
        }
    }
}

/// A text whose lines are broken where they are too long, each with the indentation of its first part. clap breaks none, unless it
/// is built to ask the terminal for its width.
fn wrapped(text: &str) -> String {
    let mut wrapped = String::new();
    for line in text.lines() {
        let words = line.trim_start();
        let indentation = &line[..line.len() - words.len()];
        let mut column = indentation.len();
        wrapped += indentation;
        for word in words.split_inclusive(' ') {
            if column + word.trim_end().chars().count() > COLUMNS {
                end_line(&mut wrapped);
                wrapped += indentation;
                column = indentation.len();
            }
            wrapped += word;
            column += word.chars().count();
        }
        end_line(&mut wrapped);
    }
    wrapped
}

/// Ends a line, without blanks at its end.
fn end_line(text: &mut String) {
    text.truncate(text.trim_end_matches(' ').len());
    text.push('\n');
}

#[cfg(test)]
mod tests {
    use super::*;

    #[test]
    fn the_description_of_the_program_is_sound() {
        Program::command().debug_assert();
    }

    #[test]
    fn long_lines_are_broken_at_blanks() {
        let (fifty, sixty) = ("x".repeat(50), "y".repeat(60));
        assert_eq!(wrapped(&format!("  {fifty} {fifty} z\n\n  a  b\n")), format!("  {fifty}\n  {fifty} z\n\n  a  b\n"));
        assert_eq!(wrapped(&format!("{fifty} {}\n", &fifty[1..])), format!("{fifty} {}\n", &fifty[1..]));
        assert_eq!(wrapped(&format!("{sixty} {sixty}\n    \n")), format!("{sixty}\n{sixty}\n\n"));
        assert_eq!(wrapped(&"\u{d7} ".repeat(50)), "\u{d7} ".repeat(50).trim_end().to_owned() + "\n");
    }
}
