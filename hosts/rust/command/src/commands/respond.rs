//! `bliss-box respond`: draws noise, and answers a challenge with it and a key.

use bliss_box::{challenge_limit, sample_count, CallError, OwnedDraw, Record, Refusal, Secret, Session};
use bliss_box::{POLYNOMIAL, RESPOND_WORDS};
use clap::{Args, ValueHint};

use crate::arguments::whole_number;
use crate::drawing::{self, Degree, DrawOptions, Drawing};
use crate::ending::{Failure, Status};
use crate::files::{InputPath, NumberFile, OutputPath, Table};
use crate::output::{self, Delivery, Target};
use crate::program::SEE_FILES;
use crate::refused;

/// Draws noise, and answers a challenge with it and a key.
///
/// Prints the response z, 2N values, one a line. A rejected response is tried again with new noise. What was counted goes to
/// standard error, try by try. The noise has BLISS-I's deviation, 215: responses are made at no other.
///
/// This command is for trying the box and its tables. It is not a signer: in a signature the challenge hashes what the noise
/// commits to, so a signer makes a new challenge for each try.
///
/// With --blank it shows the noise by itself, for bench work.
///
/// An accepted response ends with status 0. Where no try is accepted, the status is 3, and no response is printed.
#[derive(Args)]
#[command(override_usage = USAGE, after_help = SEE_FILES)]
pub struct Respond {
    /// The key: s1 and then s2, N values each, from -7 to 7
    ///
    /// A blank response makes no use of it, and may go without: then a key of zeros is lent. One that is given is tested as ever.
    #[arg(long, value_name = "FILE", value_hint = ValueHint::FilePath)]
    #[arg(required_unless_present_any = ["blank", "picture"])]
    key: Option<InputPath>,

    /// The challenge: its positions in ascending order, each below N
    ///
    /// There is at least one position, and there are at most 64 or N.
    #[arg(long, value_name = "FILE", value_hint = ValueHint::FilePath)]
    #[arg(required_unless_present_any = ["blank", "picture"], conflicts_with = "blank")]
    challenge: Option<InputPath>,

    /// Answers the empty challenge: the response is the noise itself
    ///
    /// All tests of a response apply, so that about 61 of 100 tries are accepted. This is raw noise: whoever has it, and a response
    /// made of the same words, has the key.
    #[arg(long)]
    blank: bool,

    /// Shows a blank response beside the counts that are expected, in place of its values
    ///
    /// Expected is the noise of the built-in CDT, whatever CDT is given.
    #[arg(long, requires = "blank", conflicts_with = "challenge")]
    picture: bool,

    /// The tries that may be made
    ///
    /// 64 tries all fail with a chance below 2^-64, unless the product of key and challenge is too long to be accepted at all.
    #[arg(long, value_name = "T", default_value_t = TRIES)]
    #[arg(value_parser = whole_number::<usize>(), allow_negative_numbers = true)]
    tries: usize,

    /// Stores the challenge and the response there, as the record of a signature
    ///
    /// bliss-box record read reads it. Both halves of the response are stored as they are: none is rounded. A blank response is
    /// stored without a challenge. - writes the record to standard output, in place of the response. Where no try is accepted, the
    /// file is not written.
    #[arg(long, value_name = "FILE", value_hint = ValueHint::FilePath)]
    record: Option<OutputPath>,

    #[command(flatten)]
    degree: Degree,

    #[command(flatten)]
    options: DrawOptions,
}

/// clap would write that nothing is required, since what is depends on `--blank`.
const USAGE: &str = "\
bliss-box respond [OPTIONS] --key <FILE> --challenge <FILE>
       bliss-box respond [OPTIONS] --blank";

/// The tries where no number of them is given. About 0.61 of all tries are accepted, so that these fail with a chance of 2^-86.
const TRIES: usize = 64;

const NEVER_ACCEPTED: &str = " A product of key and challenge whose sum of squares is above 46225 is never accepted; \
                              a key that passes bliss-box check-key at the challenge's length makes none.";

const STORED_ALONE: &str = "record: z1 and z2 alone, since a blank response has no challenge";

/// What the tries of a command are made with.
struct Responding {
    drawing: Drawing,
    /// None where a blank response goes without.
    key: Option<Table<i32>>,
    /// None where the response is blank.
    challenge: Option<Table<u32>>,
}

/// What a try came to.
struct Try {
    session: Session,
    /// The response, where it is accepted: secret until it is printed.
    z: Option<Secret<i32>>,
    list: Vec<u32>,
    summary: String,
}

impl Responding {
    /// One try. A spent draw has no noise to respond with, so it is a try that fails.
    fn once(&mut self, session: Session) -> Result<Try, Failure> {
        let drawn = self.drawing.draw(session)?;
        let summary = drawing::summary(&drawn);
        let noise = match drawn {
            OwnedDraw::Full(noise) => noise,
            OwnedDraw::Spent(spent) => return Ok(Try { session: spent.session, z: None, list: spent.list, summary }),
        };
        let (n, mut list) = (noise.degree(), noise.list().to_vec());
        let words = self.drawing.words.take(RESPOND_WORDS)?;
        let lent = words.len();
        let zeros = vec![0; sample_count(n)];
        let key = self.key.as_ref().map_or(&zeros[..], Table::numbers);
        let (kind, responded) = match &self.challenge {
            Some(challenge) => ("response", noise.respond(challenge.numbers(), &POLYNOMIAL, words, key)),
            None => ("blank response", noise.respond_blank(&POLYNOMIAL, words, key)),
        };
        let responded = responded.map_err(|error| match error {
            CallError::Refused(refusal, _) => self.refused(refusal, n, lent),
            error => error.into(),
        })?;
        let end = if responded.z.is_some() { "accepted" } else { "rejected" };
        let summary = format!("{summary}; {kind} {end}: entries {}", responded.list.len());
        list.extend(responded.list);
        Ok(Try { session: responded.session, z: responded.z.map(Secret::from), list, summary })
    }

    /// The record of a response. That is secret until it is printed, and so are its copies.
    fn record(&self, z: &[i32]) -> Result<Secret<u8>, Failure> {
        let (z1, z2) = z.split_at(z.len() / 2);
        let [z1, z2] = [z1, z2].map(|half| Some(half.to_vec()));
        let challenge = self.challenge.as_ref().map(|challenge| challenge.numbers().to_vec());
        let record = Record { degree: z.len() / 2, challenge, z1, z2 };
        let bytes = record.to_bytes().map(Secret::from);
        drop([record.z1, record.z2].map(|half| half.map(Secret::from)));
        Ok(bytes?)
    }

    /// A refused response that was lent so many words, and what was wrong with what the command line gave it.
    fn refused(&self, refusal: Refusal, n: usize, words: usize) -> Failure {
        let breach = match (refusal, &self.key, &self.challenge) {
            (Refusal::Lengths, Some(key), _) => refused::wrong_length(key, sample_count(n)),
            (Refusal::Challenge, _, Some(challenge)) => refused::broken_challenge(challenge, n),
            (Refusal::Words, ..) => refused::too_few_words(&self.drawing.words, "a response", RESPOND_WORDS, words),
            // Which value it is, is secret.
            (Refusal::Key, Some(key), _) => return Failure::at(key.name(), refusal),
            _ => None,
        };
        refused::refused(refusal, breach)
    }
}

impl Respond {
    pub fn run(&self) -> Result<Status, Failure> {
        if self.tries == 0 {
            return Err(Failure::at("--tries 0", "without a try there is no response"));
        }
        if self.record.as_ref().is_some_and(OutputPath::is_standard) {
            output::check_takes_bytes()?;
        }
        let mut session = self.degree.open()?;
        let n = session.degree();
        let mut responding = Responding {
            drawing: self.options.drawing(&session)?,
            key: self.key.as_ref().map(|path| Table::read(NumberFile::secret(path)?, sample_count(n))).transpose()?,
            challenge: self.read_challenge(n)?,
        };
        let mut lists = self.options.lists()?;
        let record = self.record.as_ref().map(Target::create).transpose()?;
        for number in 1..=self.tries {
            let tried = responding.once(session)?;
            session = tried.session;
            output::say(&format!("try {number}: {}", tried.summary));
            lists.add(&tried.list)?;
            if let Some(z) = tried.z {
                let mut delivery = Delivery::of(drawing::printed(&z, session.deviation(), self.picture));
                let stored_alone = record.is_some() && self.blank;
                if let Some(target) = record {
                    delivery.add(target, responding.record(&z)?)?;
                }
                lists.deliver(delivery)?;
                if stored_alone {
                    output::say(STORED_ALONE);
                }
                return Ok(Status::Served);
            }
        }
        lists.deliver(Delivery::of(Secret::zeroed(0)))?;
        let advice = if self.blank { "" } else { NEVER_ACCEPTED };
        output::say(&format!("no response accepted: tries {}.{advice}", self.tries));
        Ok(Status::Unserved)
    }

    /// None where a blank response is asked for, and nowhere else.
    fn read_challenge(&self, n: usize) -> Result<Option<Table<u32>>, Failure> {
        if self.blank {
            return Ok(None);
        }
        let path = self.challenge.as_ref().expect("a command line has one or --blank");
        Table::read(NumberFile::public(path)?, challenge_limit(n)).map(Some)
    }
}
