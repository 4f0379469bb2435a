//! `bliss-box record write`: writes a record.

use bliss_box::{challenge_limit, Record, Refusal};
use clap::{Args, ValueHint};

use crate::drawing::Degree;
use crate::ending::{Failure, Status};
use crate::files::{InputPath, NumberFile, Table};
use crate::numbers::Whole;
use crate::output;
use crate::program::SEE_FILES;
use crate::refused;

/// Writes the record of a signature, or of a part of it.
///
/// The record has the degree and the fields that are given. Its bytes go to standard output, which may not be a terminal.
#[derive(Args)]
#[command(after_help = SEE_FILES)]
pub struct Write {
    #[command(flatten)]
    degree: Degree,

    /// The challenge: its positions in ascending order, each below N
    ///
    /// There is at least one position, and there are at most 64 or N.
    #[arg(long, value_name = "FILE", value_hint = ValueHint::FilePath)]
    challenge: Option<InputPath>,

    /// The first half of the response: N values from -3263 to 3263
    #[arg(long, value_name = "FILE", value_hint = ValueHint::FilePath)]
    z1: Option<InputPath>,

    /// The second half, likewise
    ///
    /// It is stored as it is given, be it rounded or not.
    #[arg(long, value_name = "FILE", value_hint = ValueHint::FilePath)]
    z2: Option<InputPath>,
}

/// The fields that are given, as their files hold them.
struct Fields {
    challenge: Option<Table<u32>>,
    z1: Option<Table<i32>>,
    z2: Option<Table<i32>>,
}

impl Write {
    pub fn run(&self) -> Result<Status, Failure> {
        output::check_takes_bytes()?;
        let n = self.degree.open()?.degree();
        let fields = Fields {
            challenge: table(self.challenge.as_ref(), challenge_limit(n))?,
            z1: table(self.z1.as_ref(), n)?,
            z2: table(self.z2.as_ref(), n)?,
        };
        let record = Record {
            degree: n,
            challenge: numbers(fields.challenge.as_ref()),
            z1: numbers(fields.z1.as_ref()),
            z2: numbers(fields.z2.as_ref()),
        };
        output::print(record.to_bytes().map_err(|refusal| fields.refused(refusal, n))?)?;
        Ok(Status::Served)
    }
}

impl Fields {
    /// A refused record, and what was wrong with what the command line gave.
    fn refused(&self, refusal: Refusal, n: usize) -> Failure {
        let halves = [&self.z1, &self.z2].into_iter().flatten();
        let breach = match refusal {
            Refusal::Lengths => halves.into_iter().find_map(|z| refused::wrong_length(z, n)),
            Refusal::Challenge => self.challenge.as_ref().and_then(|challenge| refused::broken_challenge(challenge, n)),
            Refusal::Record => halves.into_iter().find_map(refused::large_value),
            _ => None,
        };
        refused::refused(refusal, breach)
    }
}

fn table<T: Whole>(path: Option<&InputPath>, most: usize) -> Result<Option<Table<T>>, Failure> {
    path.map(|path| Table::read(NumberFile::public(path)?, most)).transpose()
}

fn numbers<T: Whole>(table: Option<&Table<T>>) -> Option<Vec<T>> {
    table.map(|table| table.numbers().to_vec())
}
