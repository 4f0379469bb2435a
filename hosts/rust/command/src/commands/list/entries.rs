//! The entries of a read list on their way through the explanation, and those that draws and responses share.

use std::collections::VecDeque;
use std::fmt;
use std::mem;

use bliss_box::{Entry, Kind, POLYNOMIAL};

use crate::ending::Failure;

/// The entries of a list, from first to last, and the text that explains those of a call before the next one. They are read as
/// they are needed, since a list may have no end.
pub struct Entries<'a> {
    /// Where the list is from.
    name: &'a str,
    source: &'a mut dyn Iterator<Item = Result<u32, Failure>>,
    /// Those that are read and not explained yet.
    ahead: VecDeque<Entry>,
    explained: usize,
    text: String,
}

impl<'a> Entries<'a> {
    pub fn of(name: &'a str, source: &'a mut dyn Iterator<Item = Result<u32, Failure>>) -> Entries<'a> {
        Entries { name, source, ahead: VecDeque::new(), explained: 0, text: String::new() }
    }

    pub fn next(&mut self) -> Result<Option<Entry>, Failure> {
        Ok(self.ahead(1)?.next())
    }

    /// The next entries, as many as there are, but at most `count`.
    pub fn ahead(&mut self, count: usize) -> Result<impl Iterator<Item = Entry> + '_, Failure> {
        while self.ahead.len() < count {
            let Some(entry) = self.source.next() else { break };
            self.ahead.push_back(Entry(entry?));
        }
        Ok(self.ahead.iter().copied().take(count))
    }

    /// Explains the next entry, where it fits, and hands it back.
    pub fn take(
        &mut self,
        fits: impl FnOnce(Entry) -> bool,
        expected: impl fmt::Display,
        meaning: impl FnOnce(Entry) -> String,
    ) -> Result<Entry, Failure> {
        match self.next()? {
            Some(entry) if fits(entry) => {
                self.ahead.pop_front();
                self.explained += 1;
                self.text += &format!("{:>7}  {entry:<13} {}\n", self.explained, meaning(entry));
                Ok(entry)
            }
            _ => Err(self.unexpected(expected)),
        }
    }

    /// What is wrong with the next entry, which has been looked at, or with the end of the list.
    pub fn unexpected(&self, expected: impl fmt::Display) -> Failure {
        let problem = match self.ahead.front() {
            Some(entry) => format!("entry {} is {entry}, where {expected} is expected", self.explained + 1),
            None => format!("the list ends after entry {}, where {expected} is expected", self.explained),
        };
        Failure::at(self.name, problem)
    }

    /// Explains the next entry, which must be this one.
    pub fn take_this(&mut self, kind: Kind, place: usize, meaning: &str) -> Result<(), Failure> {
        let this = Entry::new(kind, place);
        self.take(|entry| entry == this, format_args!("{this}, {meaning},"), |_| meaning.to_owned())?;
        Ok(())
    }

    /// Explains the reads of the polynomial table for one exponential, from its last entry on.
    pub fn take_polynomial(&mut self, exponential: &str) -> Result<(), Failure> {
        for j in (0..POLYNOMIAL.len()).rev() {
            self.take_this(Kind::Polynomial, j, &format!("polynomial entry {j}, for {exponential}"))?;
        }
        Ok(())
    }

    /// Adds to the text between entries.
    pub fn say(&mut self, text: &str) {
        self.text += text;
    }

    /// The text since the last one that was taken.
    pub fn take_text(&mut self) -> String {
        mem::take(&mut self.text)
    }
}
