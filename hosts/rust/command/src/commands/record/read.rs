//! `bliss-box record read`: reads a record.

use bliss_box::{record_length_limit, Record, Refusal, Secret};
use clap::{Args, ValueHint};

use crate::ending::{Failure, Status};
use crate::files::{InputFile, InputPath, OutputPath};
use crate::output::{self, Delivery, Target};
use crate::program::SEE_FILES;
use crate::refused::{self, Breach};

/// Reads a record, and prints what is in it.
///
/// Prints the degree, the fields that the record has and how many numbers each, its bytes, and how many bits of these each value of
/// z1 and z2 takes. A field that is asked for is written to a file of whole numbers.
///
/// Bytes that are no record are refused, by number 15 and with status 1. To ask for a field that the record does not have is an
/// error, and nothing is written.
#[derive(Args)]
#[command(after_help = SEE_FILES)]
pub struct Read {
    /// The record: bytes, as bliss-box record write prints them
    #[arg(value_name = "FILE", value_hint = ValueHint::FilePath)]
    record: InputPath,

    /// Writes the positions of the challenge there
    #[arg(long, value_name = "FILE", value_hint = ValueHint::FilePath)]
    challenge: Option<OutputPath>,

    /// Writes the values of z1 there
    #[arg(long, value_name = "FILE", value_hint = ValueHint::FilePath)]
    z1: Option<OutputPath>,

    /// Writes the values of z2 there
    #[arg(long, value_name = "FILE", value_hint = ValueHint::FilePath)]
    z2: Option<OutputPath>,
}

/// The longest record: of the greatest degree, with the most positions.
const LONGEST: usize = record_length_limit(1024, 64);

impl Read {
    pub fn run(&self) -> Result<Status, Failure> {
        let mut file = InputFile::open(&self.record)?;
        let bytes = file.bytes(LONGEST)?;
        let record = Record::from_bytes(&bytes).map_err(|refusal| refused_bytes(refusal, file.name()))?;
        let mut delivery = Delivery::of(Secret::from(summary(&record, bytes.len())?.into_bytes()));
        for (path, text) in self.asked_for(&record, file.name())? {
            delivery.add(Target::create(path)?, text)?;
        }
        delivery.deliver()?;
        Ok(Status::Served)
    }

    /// The files that are to be written, and the text of each.
    fn asked_for(&self, record: &Record, name: &str) -> Result<Vec<(&OutputPath, Secret<u8>)>, Failure> {
        let Record { challenge, z1, z2, .. } = record;
        let mut asked_for = Vec::new();
        for (field, path, text) in [
            ("challenge", &self.challenge, challenge.as_deref().map(output::lines)),
            ("z1", &self.z1, z1.as_deref().map(output::lines)),
            ("z2", &self.z2, z2.as_deref().map(output::lines)),
        ] {
            if let Some(path) = path {
                let option = format!("--{field} {}", path.shown());
                asked_for.push((path, text.ok_or_else(|| Failure::at(option, format!("{name} has no {field}")))?));
            }
        }
        Ok(asked_for)
    }
}

/// What is in a record of so many bytes.
fn summary(record: &Record, bytes: usize) -> Result<String, Failure> {
    let Record { degree, challenge, z1, z2 } = record;
    let held = |what: &str, count: Option<usize>| count.map_or("absent".into(), |count| format!("{what} {count}"));
    let [z1, z2] = [z1, z2].map(|z| z.as_ref().map(Vec::len));
    let values = z1.unwrap_or(0) + z2.unwrap_or(0);
    let mut text = format!("degree     {degree}\n");
    text += &format!("challenge  {}\n", held("positions", challenge.as_ref().map(Vec::len)));
    text += &format!("z1         {}\n", held("values", z1));
    text += &format!("z2         {}\n", held("values", z2));
    text += &format!("record     bytes {bytes}");
    if values > 0 {
        let others = Record { z1: None, z2: None, ..record.clone() }.to_bytes()?.len();
        text += &format!(", bits a value {:.2}", 8.0 * (bytes - others) as f64 / values as f64);
    }
    Ok(text + "\n")
}

/// Bytes that are refused.
fn refused_bytes(refusal: Refusal, name: &str) -> Failure {
    let breach = match refusal {
        Refusal::Record => Some(Breach::new(name, "these bytes are no record")),
        _ => None,
    };
    refused::refused(refusal, breach)
}
