//! Why the box refused a call, said of what the command line lent to it. The box says which rule was broken; where it was broken
//! is looked for here, after the refusal, and only in what is public.

use bliss_box::{challenge_limit, thresholds, Refusal, VALUE_LIMIT};

use crate::ending::Failure;
use crate::files::Table;
use crate::numbers::Whole;
use crate::words::Words;

/// What a rule is broken by: a place, which is a file, a line of it or an option, and what is wrong there.
pub struct Breach {
    place: String,
    problem: String,
}

impl Breach {
    pub fn new(place: impl Into<String>, problem: impl Into<String>) -> Breach {
        Breach { place: place.into(), problem: problem.into() }
    }

    fn on_line<T: Whole>(table: &Table<T>, index: usize, problem: String) -> Breach {
        Breach { place: format!("{}:{}", table.name(), table.line(index)), problem }
    }
}

/// A refusal, with what was found to break its rule.
pub fn refused(refusal: Refusal, breach: Option<Breach>) -> Failure {
    match breach {
        Some(Breach { place, problem }) => Failure::at(place, format!("refusal {}: {problem}", refusal.number())),
        None => refusal.into(),
    }
}

/// Refusal 2: a table of another length.
pub fn wrong_length<T: Whole>(table: &Table<T>, wanted: usize) -> Option<Breach> {
    let length = match table.numbers().len() {
        _ if table.is_too_long() => format!("more than {wanted}"),
        length if length != wanted => length.to_string(),
        _ => return None,
    };
    Some(Breach::new(table.name(), format!("its length is {length}, and {wanted} is wanted")))
}

/// Refusal 3: a word of the CDT that is too large, or a threshold that falls. Files that were made for the order of before, a high
/// word and a low word in turn, are still about.
pub fn broken_cdt(cdt: &Table<u64>) -> Option<Breach> {
    let (index, problem) = large_word(cdt).or_else(|| falling_threshold(cdt))?;
    Some(Breach::on_line(cdt, index, format!("{problem}; the ten high words come first now, and then the ten low words")))
}

fn large_word(cdt: &Table<u64>) -> Option<(usize, String)> {
    let index = cdt.numbers().iter().position(|word| *word >= 1 << 62)?;
    Some((index, "this word is 2^62 or more".into()))
}

fn falling_threshold(cdt: &Table<u64>) -> Option<(usize, String)> {
    let thresholds = thresholds(cdt.numbers().try_into().ok()?);
    let before = thresholds.windows(2).position(|pair| pair[1] < pair[0])?;
    let named = |i: usize| format!("threshold {} (lines {} and {})", i + 1, cdt.line(i), cdt.line(10 + i));
    Some((before + 1, format!("{} is below {}", named(before + 1), named(before))))
}

/// Refusal 6: a challenge with too many positions, a position too large, or one that does not ascend.
pub fn broken_challenge(challenge: &Table<u32>, n: usize) -> Option<Breach> {
    if challenge.is_too_long() {
        let most = challenge_limit(n);
        return Some(Breach::new(challenge.name(), format!("it holds more than {most} positions, the most at degree {n}")));
    }
    let positions = challenge.numbers();
    let broken_at = |i: usize| match positions[i] {
        position if position as usize >= n => Some(format!("position {position} is not below the degree, {n}")),
        position if i > 0 && position <= positions[i - 1] => {
            Some(format!("position {position} does not come after {}, the position before it", positions[i - 1]))
        }
        _ => None,
    };
    (0..positions.len()).find_map(|i| Some(Breach::on_line(challenge, i, broken_at(i)?)))
}

/// Refusal 7: a file that has too few words left for a call.
pub fn too_few_words(words: &Words, call: &str, wanted: usize, left: usize) -> Option<Breach> {
    Some(Breach::new(words.file_name()?, format!("{call} wants {wanted} words, and it has {left} left")))
}

/// Refusal 15 of a record that is written: a value of z1 or z2 that is too large. These are public.
pub fn large_value(z: &Table<i32>) -> Option<Breach> {
    let index = z.numbers().iter().position(|value| !(-VALUE_LIMIT..=VALUE_LIMIT).contains(value))?;
    Some(Breach::on_line(z, index, format!("{} is outside -{VALUE_LIMIT} to {VALUE_LIMIT}", z.numbers()[index])))
}
