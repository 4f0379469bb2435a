//! Whole numbers in text.

use std::num::{IntErrorKind, ParseIntError};
use std::str::FromStr;

use bliss_box::DefaultIsZeroes;

/// A type of the numbers that a file or an option holds.
pub trait Whole: FromStr<Err = ParseIntError> + DefaultIsZeroes {
    const LEAST: i128;
    const MOST: i128;
}

macro_rules! whole_numbers {
    ($($number:ty),*) => { $(impl Whole for $number {
        const LEAST: i128 = <$number>::MIN as i128;
        const MOST: i128 = <$number>::MAX as i128;
    })* };
}

whole_numbers!(u64, u32, i32, usize);

/// What is wrong with a text that is no whole number. The text may be secret, so nothing of it is kept.
#[derive(Clone, Copy, Debug, PartialEq, Eq)]
pub enum Problem {
    Comma,
    Point,
    /// It has something else in it than digits after a minus sign.
    NotWhole,
    /// It is several whole numbers.
    Several,
    /// It is negative, where no value is.
    Negative,
    /// It is outside the least and the most that its type holds.
    Outside(i128, i128),
}

impl Problem {
    /// The problem in words. The subject is the text, [`shown`], or words that stand for a secret one.
    pub fn of(self, subject: &str) -> String {
        match self {
            Problem::Comma => format!("{subject} has a comma in it: {WHOLE_NUMBERS_ALONE}"),
            Problem::Point => format!("{subject} has a point in it: {WHOLE_NUMBERS_ALONE}"),
            Problem::NotWhole => format!("{subject} is not a whole number in decimal"),
            Problem::Several => "several numbers on one line; one a line is wanted".into(),
            Problem::Negative => format!("{subject} has a minus sign, and no value here is negative"),
            Problem::Outside(least, most) => format!("{subject} is outside {least} to {most}"),
        }
    }
}

const WHOLE_NUMBERS_ALONE: &str = "tables hold whole numbers, with neither comma nor point";

/// The whole number that a text is.
pub fn whole<T: Whole>(text: &str) -> Result<T, Problem> {
    match text {
        _ if text.contains(',') => Err(Problem::Comma),
        _ if text.contains('.') => Err(Problem::Point),
        _ if !is_whole(text) => Err(Problem::NotWhole),
        _ => text.parse().map_err(|error: ParseIntError| match error.kind() {
            IntErrorKind::InvalidDigit => Problem::Negative,
            _ => Problem::Outside(T::LEAST, T::MOST),
        }),
    }
}

/// The whole number that a line is. A line of several has a problem of its own.
pub fn whole_of_line<T: Whole>(line: &str) -> Result<T, Problem> {
    match whole(line) {
        Err(Problem::NotWhole) if are_several(line) => Err(Problem::Several),
        number => number,
    }
}

/// Whether a text is whole numbers with blanks, tabs or semicolons between them.
fn are_several(text: &str) -> bool {
    let numbers: Vec<&str> = text.split([' ', '\t', ';']).filter(|part| !part.is_empty()).collect();
    numbers.len() > 1 && numbers.into_iter().all(is_whole)
}

/// Whether a text is digits, with or without a minus sign before them.
fn is_whole(text: &str) -> bool {
    let digits = text.strip_prefix('-').unwrap_or(text);
    !digits.is_empty() && digits.bytes().all(|byte| byte.is_ascii_digit())
}

/// A text for a message: quoted, with what a terminal would act on escaped, and cut where it is long.
pub fn shown(text: &str) -> String {
    const MOST: usize = 40;
    let start: String = text.chars().take(MOST).collect();
    let more = if start.len() < text.len() { " and more" } else { "" };
    format!("{start:?}{more}")
}

#[cfg(test)]
mod tests {
    use super::*;

    #[test]
    fn whole_numbers_are_read_up_to_the_ends_of_their_types() {
        assert_eq!(whole::<u64>("18446744073709551615"), Ok(u64::MAX));
        assert_eq!(whole::<u32>("0004294967295"), Ok(u32::MAX));
        assert_eq!(whole::<i32>("-2147483648"), Ok(i32::MIN));
        assert_eq!(whole::<i32>("-0"), Ok(0));
        assert_eq!(whole::<u64>("18446744073709551616"), Err(Problem::Outside(0, u64::MAX.into())));
        assert_eq!(whole::<i32>("-2147483649"), Err(Problem::Outside(i32::MIN.into(), i32::MAX.into())));
    }

    #[test]
    fn commas_and_points_are_named() {
        for text in ["0,8398", ",", "1,000", "-7,", "1, 2"] {
            assert_eq!(whole_of_line::<i32>(text), Err(Problem::Comma), "{text}");
        }
        for text in ["0.8398", ".", "1.", "-7.0", "1.5e3", "1.5 2.5"] {
            assert_eq!(whole_of_line::<u64>(text), Err(Problem::Point), "{text}");
        }
    }

    #[test]
    fn what_is_no_whole_number_is_refused() {
        for text in ["", "-", "--1", "+1", "1 x", "1;", "0x10", "1e3", "\u{0661}", "\u{2212}1", "1_000", "NaN"] {
            assert_eq!(whole_of_line::<i32>(text), Err(Problem::NotWhole), "{text}");
        }
        for text in ["-1", "-0", "-99999999999999999999"] {
            assert_eq!(whole_of_line::<u64>(text), Err(Problem::Negative), "{text}");
        }
    }

    #[test]
    fn several_numbers_on_a_line_are_told() {
        for text in ["1 2", "1\t2", "1;2", "-1 ; 2;", "3  3\t 3", "99999999999999999999 1"] {
            assert_eq!(whole_of_line::<i32>(text), Err(Problem::Several), "{text}");
            assert_eq!(whole::<i32>(text), Err(Problem::NotWhole), "an option is no line: {text}");
        }
    }

    #[test]
    fn shown_text_is_short_and_harmless() {
        assert_eq!(shown("0,8"), "\"0,8\"");
        assert_eq!(shown("\u{1b}[2J"), "\"\\u{1b}[2J\"");
        assert_eq!(shown(&"1".repeat(41)), format!("\"{}\" and more", "1".repeat(40)));
        assert_eq!(shown(&"\u{e9}".repeat(40)), format!("\"{}\"", "\u{e9}".repeat(40)));
    }
}
