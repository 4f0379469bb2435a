//! `bliss-box demo`: a draw and a response with a toy key, and a picture of the noise.

use std::time::{Duration, Instant};

use bliss_box::{draw_limit, draw_word_count, sample_count, POLYNOMIAL, RESPOND_WORDS};
use bliss_box::{Counts, Deviation, Entry, Kind, Noise, OwnedDraw, OwnedResponse, Session};
use clap::Args;

use crate::drawing::NoiseOptions;
use crate::ending::{Failure, Status};
use crate::output;
use crate::picture::Picture;
use crate::words::Words;

/// Draws and responds with a toy key, and shows a picture of the noise.
///
/// Draws the noise of one signature from the system's random words, and answers a challenge with it and a toy key. Shows the noise
/// beside what is expected of it, the counts, the times, and what was listed.
///
/// A response is BLISS-I's: at another deviation than 215 there is none, and the noise alone is shown.
#[derive(Args)]
pub struct Demo {
    #[command(flatten)]
    noise: NoiseOptions,
}

const INTRODUCTION: &str = "\
A BLISS signature hides its key behind noise: random whole numbers around 0, each of which must
come up just as often as the rules say. This is noise that the box drew for one signature, counted
range by range: a bar of # for the samples drawn, and a | at the exact count that is expected.
";

const WITHOUT_RESPONSE: &str = "response   none: a response is made at deviation 215 alone";

/// What is said of the list of a draw and a response.
const LISTED: &str = "\
The box listed each place of words, tables and key that it read after its checks. Whoever reads the
list learns the degree, which attempts were accepted, the challenge and the bit of the response, but
no word, no noise and no key value:
";

/// What is said of the list of a draw alone.
const DRAW_LISTED: &str = "\
The box listed each place of words and tables that it read after its checks. Whoever reads the list
learns the degree and which attempts were accepted, but no word and no noise:
";

/// The positions of a challenge of BLISS-I.
const POSITIONS: usize = 23;

/// The values of the response that are shown.
const VALUES: usize = 8;

/// What is shown of a try: one whose response was accepted, or the first full draw where no response is made.
struct Shown {
    limit: usize,
    counts: Counts,
    picture: Picture,
    draw_time: Duration,
    response: Option<Response>,
    list: Vec<u32>,
}

/// A response that was accepted.
struct Response {
    z: Vec<i32>,
    time: Duration,
}

impl Demo {
    pub fn run(&self) -> Result<Status, Failure> {
        let mut session = self.noise.open()?;
        let mut tries = 0;
        let shown = loop {
            let (next, shown) = try_once(session, tries)?;
            session = next;
            tries += 1;
            if let Some(shown) = shown {
                break shown;
            }
        };
        output::print(shown.text(session.degree(), tries))?;
        Ok(Status::Served)
    }
}

/// One try. A spent draw has no noise to respond with, so it is a try that fails.
fn try_once(session: Session, number: usize) -> Result<(Session, Option<Shown>), Failure> {
    let limit = draw_limit(session.degree(), session.deviation());
    let (drawn, draw_time) = timed_draw(session, limit)?;
    let noise = match drawn {
        OwnedDraw::Full(noise) => noise,
        OwnedDraw::Spent(spent) => return Ok((spent.session, None)),
    };
    // The response wipes the noise, so what is shown of it is worked out before.
    let picture = Picture::of(noise.deviation(), noise.samples());
    let (counts, list) = (noise.counts(), noise.list().to_vec());
    let mut shown = Shown { limit, counts, picture, draw_time, response: None, list };
    if noise.deviation() != Deviation::D215 {
        return Ok((noise.discard(), Some(shown)));
    }
    let (responded, time) = timed_response(noise, number)?;
    shown.list.extend(responded.list);
    shown.response = responded.z.map(|z| Response { z, time });
    Ok((responded.session, shown.response.is_some().then_some(shown)))
}

fn timed_draw(session: Session, limit: usize) -> Result<(OwnedDraw, Duration), Failure> {
    let cdt = session.deviation().cdt();
    let words = Words::System.take(draw_word_count(limit))?;
    let start = Instant::now();
    let drawn = session.draw_owned(limit, cdt, &POLYNOMIAL, words)?;
    Ok((drawn, start.elapsed()))
}

fn timed_response(noise: Noise, number: usize) -> Result<(OwnedResponse, Duration), Failure> {
    let n = noise.degree();
    let (key, challenge) = (toy_key(n), toy_challenge(n, number));
    let words = Words::System.take(RESPOND_WORDS)?;
    let start = Instant::now();
    let responded = noise.respond(&challenge, &POLYNOMIAL, words, &key)?;
    Ok((responded, start.elapsed()))
}

/// A key of small values, most of them 0, and nobody's. No rotation of it is much like another, since 4099 is a prime above its
/// length: so it can answer each challenge of the demo.
fn toy_key(n: usize) -> Vec<i32> {
    const KEY_VALUES: [i32; 7] = [1, 0, 0, -1, 0, 0, 0];
    (0..sample_count(n)).map(|i| KEY_VALUES[i * i * i % 4099 % 7]).collect()
}

/// In a signature the challenge is a hash of the message and of what the noise commits to: another one for each try.
fn toy_challenge(n: usize, number: usize) -> Vec<u32> {
    let step = n / POSITIONS.min(n);
    (0..POSITIONS.min(n)).map(|i| (i * step + number % step) as u32).collect()
}

fn shown_time(time: Duration) -> String {
    format!("{:.3} ms", 1000.0 * time.as_secs_f64())
}

impl Shown {
    fn text(&self, n: usize, tries: usize) -> String {
        let Counts { attempts, accepted, entries: _ } = self.counts;
        let (response, told) = match &self.response {
            Some(response) => (response.text(n, tries), LISTED),
            None => (WITHOUT_RESPONSE.into(), DRAW_LISTED),
        };
        let lines = [
            INTRODUCTION.into(),
            self.picture.text(),
            format!("degree     {n}"),
            format!(
                "draw       full: {accepted} samples in {attempts} of at most {} attempts, {}",
                self.limit,
                shown_time(self.draw_time)
            ),
            format!("deviation  {}", self.picture.deviation()),
            response,
            format!("read list  {} entries\n", self.list.len()),
            told.into(),
            listed(&self.list),
        ];
        lines.join("\n")
    }
}

impl Response {
    fn text(&self, n: usize, tries: usize) -> String {
        let positions = POSITIONS.min(n);
        let values: Vec<String> = self.z.iter().take(VALUES).map(i32::to_string).collect();
        let lines = [
            format!("response   accepted at try {tries} (about 61 of 100 tries are), {}", shown_time(self.time)),
            format!("           a toy key, and a challenge of {positions} positions"),
            format!("           {}, ..", values.join(", ")),
        ];
        lines.join("\n")
    }
}

/// The entries of each kind, counted and explained.
fn listed(list: &[u32]) -> String {
    let mut text = String::from("    kind  entries  each tells\n");
    for kind in Kind::ALL {
        let count = list.iter().filter(|entry| Entry(**entry).kind() == Some(kind)).count();
        text += &format!("    {:>4}  {count:>7}  {kind}\n", kind.number());
    }
    text
}

#[cfg(test)]
mod tests {
    use super::*;

    #[test]
    fn the_toy_key_can_always_sign() {
        for n in [4, 8, 16, 32, 64, 128, 256, 512, 1024] {
            assert_eq!(bliss_box::check_key(n, &toy_key(n), toy_challenge(n, 0).len()).err(), None, "degree {n}");
        }
    }
}
