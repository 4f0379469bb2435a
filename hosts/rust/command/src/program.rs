//! The program as its help, its completions and its manual page describe it. Each command describes itself; what is said here is
//! common to all of them.

use clap::Parser;

use crate::commands::Command;
use crate::ending::Status;
use crate::version::{ORIGIN, VERSION};

#[derive(Parser)]
#[command(name = "bliss-box", bin_name = "bliss-box", version = VERSION, long_version = ORIGIN.as_str())]
#[command(about = ABOUT, long_about = None, after_help = after_help(), arg_required_else_help = false)]
pub struct Program {
    #[command(subcommand)]
    pub command: Command,
}

/// A title, and after an empty line what the program is for.
const ABOUT: &str = "\
The BLISS-I sampling box from the command line

Draws the noise of BLISS signatures from random words, and turns noise, key and challenge into a response of BLISS-I or a \
rejection. Tells whether a key can always sign, and stores signatures.";

/// What the help of a command says last that reads files.
pub const SEE_FILES: &str = "bliss-box --help says what files hold, and what each exit status means.";

/// What files hold, and how they are written.
pub const FILES: [&str; 2] = [
    "Files hold whole numbers in decimal, one a line. Blank lines and lines that start with # are skipped, so that a table may \
     say what it is. A value with a comma or a point in it is refused. The record of a signature is bytes, and no text. A file \
     named - is standard input. No message shows a value of a key or a word.",
    "A file that is written must be none of the others. It is put in its place once it is whole, and only its owner may read \
     it. One named - is standard output, where it stands in place of what would be printed.",
];

/// What is printed where the status is not 0.
pub const PRINTED: &str = "\
What is refused, bad or wrong prints nothing to standard output. But list prints call by call, and respond --list - try by \
try, and what they have printed before stays.";

fn after_help() -> String {
    let mut text = String::from("bliss-box COMMAND --help says more of a command.\n\nFiles:\n");
    for paragraph in FILES {
        text += &format!("  {paragraph}\n\n");
    }
    text += "Exit status:\n";
    for status in Status::ALL {
        text += &format!("  {}  {}\n", status as u8, status.meaning());
    }
    text + "\n  " + PRINTED
}
