//! `bliss-box check-key`: tells whether a key can always sign at one challenge length.

use bliss_box::{challenge_limit, check_key, sample_count, KeyCheck, Refusal, Secret, KEY_SUM_LIMIT};
use clap::{Args, ValueHint};

use crate::arguments::whole_number;
use crate::drawing::Degree;
use crate::ending::{Failure, Status};
use crate::files::{InputPath, NumberFile, Table};
use crate::output;
use crate::program::SEE_FILES;
use crate::refused::{self, Breach};

/// Tells whether a key can always sign, before it goes into a box.
///
/// A key that passes can answer every challenge of just K positions: no response to one is rejected because the product of key
/// and challenge is too long. That says nothing of challenges of other lengths, nor of whether the key is well made. The key's
/// final sum is printed beside 46225, the most that passes. It tells something of the key: keep it as you keep the key.
///
/// A key whose final sum is above 46225 is refused, by number 13 and with status 1: make another one. Some generators of
/// BLISS-I keys have a looser bound, 46478: at 23 positions about one in five of their keys is refused.
#[derive(Args)]
#[command(after_help = SEE_FILES)]
pub struct CheckKey {
    /// The key: s1 and then s2, N values each, from -7 to 7
    #[arg(value_name = "FILE", value_hint = ValueHint::FilePath)]
    key: InputPath,

    /// The length of a challenge: 1 to 64 positions, and at most N; those of BLISS-I have 23
    #[arg(long, value_name = "K")]
    #[arg(value_parser = whole_number::<usize>(), allow_negative_numbers = true)]
    length: usize,

    #[command(flatten)]
    degree: Degree,
}

impl CheckKey {
    pub fn run(&self) -> Result<Status, Failure> {
        let n = self.degree.open()?.degree();
        let key = Table::read(NumberFile::secret(&self.key)?, sample_count(n))?;
        let check = check_key(n, key.numbers(), self.length).map_err(|refusal| self.refused(refusal, &key, n))?;
        // The sum tells something of the key, and so does its text.
        let text = Secret::from(self.passed(check).into_bytes());
        output::print(&*text)?;
        Ok(Status::Served)
    }

    fn passed(&self, check: KeyCheck) -> String {
        format!(
            "At challenge length {} this key can always sign: no response is rejected because the product is too long.\n\
             Its final sum is {}, and the most that passes is {KEY_SUM_LIMIT}.\n",
            self.length, check.sum
        )
    }

    /// A refused key, and what was wrong with what the command line gave.
    fn refused(&self, refusal: Refusal, key: &Table<i32>, n: usize) -> Failure {
        let breach = match refusal {
            Refusal::Lengths => refused::wrong_length(key, sample_count(n)),
            Refusal::Challenge => {
                let range = format!("at degree {n} the length of a challenge is 1 to {}", challenge_limit(n));
                Some(Breach::new(format!("--length {}", self.length), range))
            }
            // Which value it is, is secret.
            Refusal::Key => return Failure::at(key.name(), refusal),
            Refusal::KeySum => {
                let never = format!("at challenge length {} some challenges may never be answered", self.length);
                Some(Breach::new(key.name(), format!("its final sum is above {KEY_SUM_LIMIT}: {never}; make another key")))
            }
            _ => None,
        };
        refused::refused(refusal, breach)
    }
}
