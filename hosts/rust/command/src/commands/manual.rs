//! `bliss-box manual`: prints the manual page. It is made from the description of the commands by which the command line is read,
//! so that each command and each option is in it.

use clap::builder::StyledStr;
use clap::{Arg, Args, CommandFactory};
use roff::{bold, italic, roman, Inline, Roff};

use crate::ending::{Failure, Status};
use crate::output;
use crate::program::{Program, FILES, PRINTED};
use crate::version::{ORIGIN, VERSION};

/// Prints the manual page, in the language of man.
///
/// bliss-box manual | man -l - shows it.
#[derive(Args)]
pub struct Manual {}

impl Manual {
    pub fn run(&self) -> Result<Status, Failure> {
        output::print(page(Program::command()))?;
        Ok(Status::Served)
    }
}

fn page(mut program: clap::Command) -> String {
    program.build();
    let name = program.get_name().to_owned();
    let about = text(program.get_about());
    let (title, description) = first_paragraph(&about);

    let mut page = Roff::new();
    page.control("TH", [name.to_uppercase().as_str(), "1", "\"\"", &format!("{name} {VERSION}")]);
    page.control("SH", ["NAME"]).text([roman(format!("{name} - {title}"))]);
    page.control("SH", ["SYNOPSIS"]);
    put_usage(&mut page, &mut program);
    page.control("SH", ["DESCRIPTION"]);
    put_paragraphs(&mut page, description, "PP");
    page.control("SH", ["OPTIONS"]);
    for argument in program.get_arguments() {
        put_argument(&mut page, argument);
    }
    page.control("SH", ["COMMANDS"]);
    put_commands(&mut page, &mut program, "");
    page.control("SH", ["FILES"]);
    put_paragraphs(&mut page, &FILES.join("\n\n"), "PP");
    page.control("SH", ["EXIT STATUS"]);
    for status in Status::ALL {
        put_item(&mut page, vec![bold((status as u8).to_string())], status.meaning());
    }
    page.control("PP", []).text([roman(PRINTED)]);
    page.control("SH", ["VERSION"]);
    page.control("nf", []).text([roman(format!("{name} {}", *ORIGIN))]).control("fi", []);
    page.render()
}

/// The commands below one, each under its name and the words before it, with those below it. The command help has all of them
/// once more.
fn put_commands(page: &mut Roff, above: &mut clap::Command, words: &str) {
    for command in above.get_subcommands_mut() {
        let name = format!("{words}{}", command.get_name());
        put_command(page, command, &name);
        if name != "help" {
            put_commands(page, command, &format!("{name} "));
        }
    }
}

/// A command without its option --help, which stands among those of the program.
fn put_command(page: &mut Roff, command: &mut clap::Command, name: &str) {
    page.control("SS", [name]);
    put_usage(page, command);
    page.control("PP", []);
    put_paragraphs(page, &text(command.get_long_about().or(command.get_about())), "PP");
    for argument in command.get_arguments().filter(|argument| argument.get_id() != "help") {
        put_argument(page, argument);
    }
}

fn put_usage(page: &mut Roff, command: &mut clap::Command) {
    let usage = command.render_usage().to_string();
    let usage = usage.trim_start_matches("Usage: ");
    let name = command.get_bin_name().unwrap_or(command.get_name());
    for (number, way) in usage.lines().map(str::trim).enumerate() {
        if number > 0 {
            page.control("PP", []);
        }
        page.text([bold(name), roman(way.strip_prefix(name).unwrap_or(way))]);
    }
}

fn put_argument(page: &mut Roff, argument: &Arg) {
    let help = text(argument.get_long_help().or(argument.get_help()));
    let (first, rest) = first_paragraph(&help);
    put_item(page, tag(argument), &format!("{first}{}\n\n{rest}", values(argument)));
}

/// An argument as it stands on a command line. An option has a long name, and may have a short one before it.
fn tag(argument: &Arg) -> Vec<Inline> {
    let mut tag = Vec::new();
    if let Some(short) = argument.get_short() {
        tag.extend([bold(format!("-{short}")), roman(", ")]);
    }
    if let Some(long) = argument.get_long() {
        tag.push(bold(format!("--{long}")));
    }
    let takes_values = argument.get_action().takes_values();
    for value in argument.get_value_names().unwrap_or_default().iter().filter(|_| takes_values) {
        let before = if argument.is_positional() { "" } else { " " };
        tag.extend([roman(before), italic(value.as_str())]);
    }
    tag
}

/// The default and the possible values of an argument that takes one, in the form in which the help has them.
fn values(argument: &Arg) -> String {
    if !argument.get_action().takes_values() {
        return String::new();
    }
    let default = argument.get_default_values().iter().map(|value| value.to_string_lossy().into_owned());
    let possible = argument.get_possible_values();
    let possible = possible.iter().map(|value| value.get_name().to_owned());
    let noted = |name, values: Vec<String>| match values[..] {
        [] => String::new(),
        _ => format!(" [{name}: {}]", values.join(", ")),
    };
    noted("default", default.collect()) + &noted("possible values", possible.collect())
}

/// A tag, and below it paragraphs that explain it.
fn put_item(page: &mut Roff, tag: Vec<Inline>, text: &str) {
    page.control("TP", []).text(tag);
    put_paragraphs(page, text, "IP");
}

/// Paragraphs, with a macro between them.
fn put_paragraphs(page: &mut Roff, text: &str, between: &str) {
    let (first, rest) = first_paragraph(text);
    page.text([roman(first)]);
    for paragraph in rest.split("\n\n").filter(|paragraph| !paragraph.is_empty()) {
        page.control(between, []).text([roman(paragraph)]);
    }
}

/// The first paragraph of a text, and the others.
fn first_paragraph(text: &str) -> (&str, &str) {
    text.split_once("\n\n").unwrap_or((text, ""))
}

fn text(styled: Option<&StyledStr>) -> String {
    styled.map(StyledStr::to_string).unwrap_or_default()
}

#[cfg(test)]
mod tests {
    use super::*;

    /// The lines of a page that are requests to roff. A line of text is none, be it begun by a point or by an apostrophe.
    fn requests(page: &str) -> Vec<&str> {
        page.lines().filter(|line| line.starts_with(['.', '\''])).collect()
    }

    #[test]
    fn text_is_never_a_request() {
        let described = |text: &'static str| {
            let argument = || Arg::new("x").long("x").value_name(text).help(text).long_help(format!("{text}\n\n{text}"));
            let command = clap::Command::new("y").about(text).long_about(format!("{text}\n\n{text}"));
            let about = format!("{text}\n\n{text}\n\n{text}");
            let command = command.arg(argument()).subcommand(clap::Command::new("w").about(text).arg(argument()));
            page(clap::Command::new("z").about(about).arg(argument()).subcommand(command))
        };
        let plain = described("text");
        for request in [".TP", ".SS y", ".SS \"y w\""] {
            assert!(requests(&plain).contains(&request), "{plain}");
        }
        for text in [".so file", "'so file", "a\n.so file", "a\n'so file", ".."] {
            assert_eq!(requests(&described(text)), requests(&plain), "{text}");
        }
    }
}
