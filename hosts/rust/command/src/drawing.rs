//! What the commands share that draw: their options, their draws, and how noise is printed.

use bliss_box::{draw_limit, draw_word_count, CDT, POLYNOMIAL};
use bliss_box::{CallError, Counts, Deviation, OwnedDraw, Refusal, Secret, Session};
use clap::{Args, ValueHint};

use crate::arguments::{whole_number, DeviationParser};
use crate::ending::Failure;
use crate::files::{InputPath, NumberFile, OutputPath, Table};
use crate::output::{self, Lists};
use crate::picture::Picture;
use crate::refused::{self, Breach};
use crate::words::Words;

/// What a file of words can do that the system's random source does not.
const USED_TWICE: &str = "words used twice make the same noise twice, and two responses over one noise give the key away";

/// The option of whatever has a degree.
#[derive(Args)]
pub struct Degree {
    /// The degree: a power of two from 4 to 1024
    #[arg(long, value_name = "N", default_value_t = 512)]
    #[arg(value_parser = whole_number::<usize>(), allow_negative_numbers = true)]
    degree: usize,
}

impl Degree {
    /// A session of BLISS-I, which can respond.
    pub fn open(&self) -> Result<Session, Failure> {
        self.open_at(Deviation::D215)
    }

    fn open_at(&self, deviation: Deviation) -> Result<Session, Failure> {
        Session::open(self.degree, deviation).map_err(|refusal| Failure::at(format!("--degree {}", self.degree), refusal))
    }
}

/// The options of whatever draws noise for any parameter set.
#[derive(Args)]
pub struct NoiseOptions {
    #[command(flatten)]
    degree: Degree,

    /// The deviation of noise
    ///
    /// BLISS-I has 215; BLISS-II, III and IV have 107, 250 and 271.
    #[arg(long, value_name = "D", default_value_t = Deviation::D215)]
    #[arg(value_parser = DeviationParser, allow_negative_numbers = true)]
    deviation: Deviation,
}

impl NoiseOptions {
    /// A session of the degree and the deviation that are asked for.
    pub fn open(&self) -> Result<Session, Failure> {
        self.degree.open_at(self.deviation)
    }
}

/// The options of whatever draws by files, besides those of the session.
#[derive(Args)]
pub struct DrawOptions {
    /// The attempts a draw may make, 2N to 32N [default: 4N + 56; at 107 6N + 88]
    ///
    /// With the built-in CDT, as many as the default are all spent with a chance of at most 2^-64. At deviation 107 more attempts are
    /// rejected than at the others.
    #[arg(long, value_name = "L")]
    #[arg(value_parser = whole_number::<usize>(), allow_negative_numbers = true)]
    limit: Option<usize>,

    /// The CDT [default: the built-in one of the deviation]
    ///
    /// The file holds ten thresholds that never fall: their ten high words, and then their ten low words, all below 2^62. Nothing
    /// shows for which deviation they were made, so that they are not checked against it.
    #[arg(long, value_name = "FILE", value_hint = ValueHint::FilePath)]
    cdt: Option<InputPath>,

    /// Random words [default: the system's random source]
    ///
    /// Each draw takes the next 4L words of the file, and each response the next 3. A file used twice makes the same noise twice,
    /// and two responses over one noise give the key away.
    #[arg(long, value_name = "FILE", value_hint = ValueHint::FilePath)]
    words: Option<InputPath>,

    /// Writes the read list there, one entry a line
    ///
    /// The list is that of all calls that are made, one after another. - writes it to standard output, in place of what would be
    /// printed there.
    #[arg(long, value_name = "FILE", value_hint = ValueHint::FilePath)]
    list: Option<OutputPath>,
}

impl DrawOptions {
    /// What the draws of the session are made with.
    pub fn drawing(&self, session: &Session) -> Result<Drawing, Failure> {
        let limit = self.limit.unwrap_or(draw_limit(session.degree(), session.deviation()));
        let cdt = self.cdt.as_ref().map(|path| Table::read(NumberFile::public(path)?, CDT.len())).transpose()?;
        let words = Words::of(self.words.as_ref())?;
        let warning = words.file_name().map(|file| format!("bliss-box: warning: {file}: {USED_TWICE}"));
        Ok(Drawing { limit, cdt, words, warning })
    }

    /// Where the read lists go.
    pub fn lists(&self) -> Result<Lists, Failure> {
        Lists::of(self.list.as_ref())
    }
}

/// What the draws of a command are made with.
pub struct Drawing {
    limit: usize,
    /// The CDT of a file, in place of the built-in one of the deviation.
    cdt: Option<Table<u64>>,
    /// Draws take from these, and responses too.
    pub words: Words,
    /// What is said once noise has been drawn.
    warning: Option<String>,
}

impl Drawing {
    pub fn draw(&mut self, session: Session) -> Result<OwnedDraw, Failure> {
        let (n, built_in) = (session.degree(), session.deviation().cdt());
        // Any other limit is refused before words are looked at, so it is given none.
        let words = if (2 * n..=32 * n).contains(&self.limit) { draw_word_count(self.limit) } else { 0 };
        let words = self.words.take(words)?;
        let (lent, cdt) = (words.len(), self.cdt.as_ref().map_or(&built_in[..], Table::numbers));
        let drawn = session.draw_owned(self.limit, cdt, &POLYNOMIAL, words).map_err(|error| match error {
            CallError::Refused(refusal, _) => self.refused(refusal, n, lent),
            error => error.into(),
        })?;
        if let Some(warning) = self.warning.take() {
            output::say(&warning);
        }
        Ok(drawn)
    }

    /// A refused draw that was lent so many words, and what was wrong with what the command line gave it.
    fn refused(&self, refusal: Refusal, n: usize, words: usize) -> Failure {
        let breach = match (refusal, &self.cdt) {
            (Refusal::Lengths, Some(cdt)) => refused::wrong_length(cdt, CDT.len()),
            (Refusal::Cdt, Some(cdt)) => refused::broken_cdt(cdt),
            (Refusal::Limit, _) => {
                let range = format!("at degree {n} the limit is {} to {}", 2 * n, 32 * n);
                Some(Breach::new(format!("--limit {}", self.limit), range))
            }
            (Refusal::Words, _) => refused::too_few_words(&self.words, "a draw", draw_word_count(self.limit), words),
            _ => None,
        };
        refused::refused(refusal, breach)
    }
}

/// What a draw came to, in a line.
pub fn summary(drawn: &OwnedDraw) -> String {
    let (end, Counts { attempts, accepted, entries }) = match drawn {
        OwnedDraw::Full(noise) => ("full", noise.counts()),
        OwnedDraw::Spent(spent) => ("spent", spent.counts),
    };
    format!("draw {end}: attempts {attempts}, accepted {accepted}, entries {entries}")
}

/// Noise as it is printed, which is as secret as the noise: its values, one a line, or in place of them how many fall in each range,
/// and their deviation.
pub fn printed(samples: &[i32], deviation: Deviation, as_picture: bool) -> Secret<u8> {
    if !as_picture {
        return output::lines(samples);
    }
    let picture = Picture::of(deviation, samples);
    Secret::from(format!("{}\ndeviation  {}\n", picture.text(), picture.deviation()).into_bytes())
}
