//! What is written: results to standard output, what is said beside them to standard error, and the rest to files.

use std::fmt::Display;
use std::fs::File;
use std::io::{self, ErrorKind, IsTerminal, Write};
use std::os::fd::AsFd;
use std::sync::atomic::{AtomicBool, Ordering};

use bliss_box::Secret;

use crate::ending::Failure;
use crate::files::{OutputFile, OutputPath};

/// The longest line of a 32-bit number: a sign, ten digits and the line's end.
const LONGEST_LINE: usize = 12;

/// Whether standard output was closed when the program was started.
static CLOSED: AtomicBool = AtomicBool::new(false);

/// Before `main`, Rust's runtime opens /dev/null in the place of a standard output that is closed, and what is printed would be
/// lost without an error. So this is called before the runtime.
extern "C" fn look_at_standard_output() {
    // SAFETY: the command takes no further argument, and any number as a descriptor.
    let flags = unsafe { libc::fcntl(libc::STDOUT_FILENO, libc::F_GETFD) };
    CLOSED.store(flags == -1, Ordering::Relaxed);
}

#[used]
#[link_section = ".init_array"]
static BEFORE_THE_RUNTIME: extern "C" fn() = look_at_standard_output;

/// Looks whether there is a standard output at all.
pub fn check() -> Result<(), Failure> {
    if CLOSED.load(Ordering::Relaxed) {
        return Err(Failure::at("standard output", "it is closed"));
    }
    Ok(())
}

/// Says a text on standard error. What a terminal would act on is escaped, since a text may quote the command line or a file's
/// name. Nobody is left to be told where it fails.
pub fn say(text: &str) {
    let mut said = String::new();
    for character in text.chars() {
        if character.is_control() && character != '\n' {
            said.extend(character.escape_default());
        } else {
            said.push(character);
        }
    }
    let _ = writeln!(io::stderr(), "{said}");
}

/// Prints text to standard output.
pub fn print(text: impl AsRef<[u8]>) -> Result<(), Failure> {
    // Not through std's handle: it has a buffer that nobody wipes, and takes a descriptor that can't be written for a good one.
    let output = io::stdout().as_fd().try_clone_to_owned().map(File::from);
    match output.and_then(|mut output| output.write_all(text.as_ref())) {
        Err(error) if error.kind() == ErrorKind::BrokenPipe => Err(Failure::Unread),
        result => result.map_err(|error| Failure::at("standard output", error)),
    }
}

/// Looks whether standard output takes bytes that are no text. A terminal would act on them.
pub fn check_takes_bytes() -> Result<(), Failure> {
    if io::stdout().is_terminal() {
        return Err(Failure::at("standard output", "it is a terminal, and a record is no text: send it to a file"));
    }
    Ok(())
}

/// Where something goes that a command makes besides what it prints.
pub enum Target {
    /// To standard output, in place of what the command prints.
    Standard,
    File(OutputFile),
}

impl Target {
    pub fn create(path: &OutputPath) -> Result<Target, Failure> {
        Ok(if path.is_standard() { Target::Standard } else { Target::File(OutputFile::create(path)?) })
    }
}

/// What a command has made.
pub struct Delivery {
    printed: Secret<u8>,
    files: Vec<OutputFile>,
}

impl Delivery {
    /// What it prints.
    pub fn of(printed: Secret<u8>) -> Delivery {
        Delivery { printed, files: Vec::new() }
    }

    /// Adds what goes to a target of its own.
    pub fn add(&mut self, target: Target, bytes: Secret<u8>) -> Result<(), Failure> {
        match target {
            Target::Standard => self.printed = bytes,
            Target::File(mut file) => {
                file.write(&bytes)?;
                self.files.push(file);
            }
        }
        Ok(())
    }

    /// Prints, and puts the files in their places. All of these are on the disk before, so that nothing but the replacing is left
    /// that could fail.
    pub fn deliver(self) -> Result<(), Failure> {
        self.files.iter().try_for_each(OutputFile::sync)?;
        print(&*self.printed)?;
        self.files.into_iter().try_for_each(OutputFile::keep)
    }
}

/// Where the read lists of a command go, if they are asked for. They are written call by call.
pub struct Lists(Option<Target>);

impl Lists {
    pub fn of(path: Option<&OutputPath>) -> Result<Lists, Failure> {
        Ok(Lists(path.map(Target::create).transpose()?))
    }

    /// Adds the entries of calls, one a line.
    pub fn add(&mut self, list: &[u32]) -> Result<(), Failure> {
        match &mut self.0 {
            None => Ok(()),
            Some(Target::Standard) => print(&*lines(list)),
            Some(Target::File(file)) => file.write(&lines(list)),
        }
    }

    /// Delivers the lists with the rest.
    pub fn deliver(self, mut delivery: Delivery) -> Result<(), Failure> {
        match self.0 {
            None => {}
            Some(target) => delivery.add(target, Secret::zeroed(0))?,
        }
        delivery.deliver()
    }
}

/// The text of 32-bit numbers, one a line. That of noise is as secret as the noise.
pub fn lines<T: Display>(numbers: &[T]) -> Secret<u8> {
    let mut text = Secret::zeroed(LONGEST_LINE * numbers.len());
    let mut room = &mut text[..];
    for number in numbers {
        writeln!(room, "{number}").expect("a line is at most the longest");
    }
    let left = room.len();
    Secret::from(text[..text.len() - left].to_vec())
}
