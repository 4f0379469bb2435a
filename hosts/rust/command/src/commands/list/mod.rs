//! `bliss-box list`: explains a read list, entry by entry. It shows what the list tells to whoever reads it.

mod draw;
mod entries;
mod response;
#[cfg(test)]
mod tests;

use std::iter;

use bliss_box::{Deviation, Entry, Kind, Session};
use clap::{Args, ValueHint};

use crate::ending::{Failure, Status};
use crate::files::{self, InputPath, NumberFile};
use crate::output;
use crate::program::SEE_FILES;
use entries::Entries;

/// Explains a read list, entry by entry.
///
/// Prints for each entry its number in the file, its kind and place, and what it tells.
///
/// Whoever reads a read list learns the degree, which attempts were accepted, the challenge, and whether the response was accepted;
/// these are printed again at the end of each call. An entry that cannot stand where it stands is an error. Each call is printed
/// once it is read whole, so that the calls before the error are printed too.
#[derive(Args)]
#[command(after_help = SEE_FILES)]
pub struct List {
    /// The read list of one call, or those of a session's calls, as --list writes them
    ///
    /// The lists of a session's calls stand one after another. A list has one entry a line, each kind * 2^24 + place.
    #[arg(value_hint = ValueHint::FilePath)]
    file: InputPath,
}

impl List {
    pub fn run(&self) -> Result<Status, Failure> {
        let mut file = NumberFile::public(&self.file)?;
        let name = file.name().to_owned();
        let mut source = iter::from_fn(|| file.number().transpose());
        let mut entries = Entries::of(&name, &mut source);
        if entries.next()?.is_none() {
            return Err(files::empty(&name));
        }
        explain(&mut entries, output::print)?;
        Ok(Status::Served)
    }
}

/// Puts a read list in words, call by call: no more than one call is held, and what stands before a damaged one is printed.
fn explain(entries: &mut Entries, mut print: impl FnMut(String) -> Result<(), Failure>) -> Result<(), Failure> {
    let mut degree = None;
    // The list of a response may stand alone. In a session a response follows a full draw.
    let mut may_respond = true;
    while entries.next()?.is_some() {
        if degree.is_some() {
            entries.say("\n");
        }
        let first = beginning(entries, degree, may_respond)?;
        degree = Some(first.place());
        may_respond = if first.kind() == Some(Kind::Draw) {
            draw::explain(entries, first.place())?
        } else {
            response::explain(entries, first.place())?;
            false
        };
        print(entries.take_text())?;
    }
    Ok(())
}

/// Explains the first entry of a call. The degree is the one of the calls before, if there are any.
fn beginning(entries: &mut Entries, degree: Option<usize>, may_respond: bool) -> Result<Entry, Failure> {
    let fits = |entry: Entry| {
        let right_degree =
            degree.map_or(Session::open(entry.place(), Deviation::D215).is_ok(), |degree| entry.place() == degree);
        right_degree && (entry.kind() == Some(Kind::Draw) || entry.kind() == Some(Kind::Response) && may_respond)
    };
    let place = degree.map_or("a power of two from 4 to 1024".into(), |degree| degree.to_string());
    let [draw, response] = [Kind::Draw, Kind::Response].map(|kind| format!("({}, {place})", kind.number()));
    let or_response = if may_respond { format!(" or of a response, {response},") } else { String::new() };
    entries.take(fits, format_args!("the first entry of a draw, {draw},{or_response}"), |entry| match entry.kind() {
        Some(Kind::Draw) => format!("a draw of degree {}", entry.place()),
        _ => format!("a response of degree {}", entry.place()),
    })
}
