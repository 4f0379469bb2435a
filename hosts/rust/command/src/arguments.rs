//! What the arguments of commands share: their names in messages, and values that are whole numbers or deviations.

use std::ffi::OsStr;
use std::marker::PhantomData;

use bliss_box::Deviation;
use clap::builder::{PossibleValue, TypedValueParser};
use clap::error::{Error, ErrorKind};
use clap::{Arg, Command};

use crate::numbers::{shown, whole, Whole};

/// The name of an argument in a message: that of an option, or of the value where it stands alone.
pub fn name(argument: &Arg) -> String {
    match (argument.get_long(), argument.get_value_names()) {
        (Some(option), _) => format!("--{option}"),
        (None, Some([value, ..])) => value.to_string(),
        (None, _) => argument.get_id().to_string(),
    }
}

/// Reads the value of an argument that is a whole number.
pub fn whole_number<T: Whole + Send + Sync + 'static>() -> impl TypedValueParser<Value = T> {
    WholeNumber(PhantomData)
}

#[derive(Clone)]
struct WholeNumber<T>(PhantomData<T>);

impl<T: Whole + Send + Sync + 'static> TypedValueParser for WholeNumber<T> {
    type Value = T;

    /// What is wrong with a value is said as it is of one in a file, and not in clap's words.
    fn parse_ref(&self, _: &Command, argument: Option<&Arg>, value: &OsStr) -> Result<T, Error> {
        let text = value.to_string_lossy();
        whole(&text).map_err(|problem| bad_value(argument, &format!(": {}", problem.of(&shown(&text)))))
    }
}

/// Reads the value of an argument that is a deviation of noise.
#[derive(Clone)]
pub struct DeviationParser;

impl TypedValueParser for DeviationParser {
    type Value = Deviation;

    /// Of a number that is none the box's refusal is said.
    fn parse_ref(&self, command: &Command, argument: Option<&Arg>, value: &OsStr) -> Result<Deviation, Error> {
        let number = whole_number::<u64>().parse_ref(command, argument, value)?;
        Deviation::try_from(number).map_err(|refusal| bad_value(argument, &format!(" {number}: {refusal}")))
    }

    /// For help and completions.
    fn possible_values(&self) -> Option<Box<dyn Iterator<Item = PossibleValue> + '_>> {
        Some(Box::new(["107", "215", "250", "271"].into_iter().map(PossibleValue::new)))
    }
}

/// A bad value of an argument, with what is said behind the argument's name.
fn bad_value(argument: Option<&Arg>, said: &str) -> Error {
    Error::raw(ErrorKind::ValueValidation, argument.map(name).unwrap_or_default() + said)
}
