//! Files of whole numbers in decimal, one a line. Blank lines and lines that start with # are skipped.

use std::fmt::Display;
use std::str;

use bliss_box::Secret;

use super::{InputFile, InputPath};
use crate::ending::Failure;
use crate::numbers::{shown, whole_of_line, Whole};

/// The longest line that a file may have, in bytes. It keeps what is no text from being read for ever.
const LONGEST_LINE: usize = 4096;

/// What a message says of a value in place of the value, where it is secret.
const SECRET_VALUE: &str = "this value";

/// A byte order mark, which some editors put at the start of a text.
const BYTE_ORDER_MARK: char = '\u{feff}';

/// A file of whole numbers, read one by one. Its text may be secret, so all memory for it is wiped.
pub struct NumberFile {
    file: InputFile,
    /// Whether no message may show what is in it.
    is_secret: bool,
    chunk: Secret<u8>,
    next: usize,
    end: usize,
    line: Secret<u8>,
    line_number: usize,
}

impl NumberFile {
    /// The file at this path, whose values messages may show.
    pub fn public(path: &InputPath) -> Result<NumberFile, Failure> {
        NumberFile::open(path, false)
    }

    /// The same for a file of secrets: messages name lines of it, and show no value.
    pub fn secret(path: &InputPath) -> Result<NumberFile, Failure> {
        NumberFile::open(path, true)
    }

    fn open(path: &InputPath, is_secret: bool) -> Result<NumberFile, Failure> {
        let file = InputFile::open(path)?;
        let (chunk, line) = (Secret::zeroed(1 << 16), Secret::zeroed(LONGEST_LINE));
        Ok(NumberFile { file, is_secret, chunk, next: 0, end: 0, line, line_number: 0 })
    }

    pub fn name(&self) -> &str {
        self.file.name()
    }

    /// The next number of the file.
    pub fn number<T: Whole>(&mut self) -> Result<Option<T>, Failure> {
        while let Some(length) = self.line()? {
            let text = str::from_utf8(&self.line[..length]).map_err(|_| self.here("this is not UTF-8 text"))?;
            let text = if self.line_number == 1 { text.strip_prefix(BYTE_ORDER_MARK).unwrap_or(text) } else { text };
            let text = text.trim();
            if !text.is_empty() && !text.starts_with('#') {
                let said = || if self.is_secret { SECRET_VALUE.into() } else { shown(text) };
                return whole_of_line(text).map(Some).map_err(|problem| self.here(problem.of(&said())));
            }
        }
        Ok(None)
    }

    /// Reads the next line, without its end, and hands back its length.
    fn line(&mut self) -> Result<Option<usize>, Failure> {
        let mut length = 0;
        self.line_number += 1;
        loop {
            match self.byte()? {
                None if length == 0 => return Ok(None),
                None | Some(b'\n') => return Ok(Some(length)),
                Some(_) if length == LONGEST_LINE => {
                    return Err(self.here(format!("this line is longer than {LONGEST_LINE} bytes")));
                }
                Some(byte) => self.line[length] = byte,
            }
            length += 1;
        }
    }

    /// A failure at the last line that was read.
    fn here(&self, problem: impl Display) -> Failure {
        Failure::at(format!("{}:{}", self.name(), self.line_number), problem)
    }

    fn byte(&mut self) -> Result<Option<u8>, Failure> {
        while self.next == self.end {
            match self.file.read(&mut self.chunk)? {
                0 => return Ok(None),
                count => (self.next, self.end) = (0, count),
            }
        }
        self.next += 1;
        Ok(Some(self.chunk[self.next - 1]))
    }
}

/// A file without a number, which is no table and no list.
pub fn empty(name: &str) -> Failure {
    Failure::at(name, "there is no number in it")
}

/// The numbers of a file, and where they stand.
pub struct Table<T: Whole> {
    name: String,
    numbers: Secret<T>,
    /// The line of each number.
    lines: Vec<usize>,
}

impl<T: Whole> Table<T> {
    /// Reads a table of at most so many numbers. It ends at the first number too many, since a file may have no end.
    pub fn read(mut file: NumberFile, most: usize) -> Result<Table<T>, Failure> {
        let mut numbers = Secret::zeroed(most + 1);
        let mut lines = Vec::new();
        while lines.len() < numbers.len() {
            let Some(number) = file.number()? else { break };
            numbers[lines.len()] = number;
            lines.push(file.line_number);
        }
        match lines.len() {
            0 => Err(empty(file.name())),
            _ => Ok(Table { name: file.name().to_owned(), numbers, lines }),
        }
    }

    pub fn name(&self) -> &str {
        &self.name
    }

    pub fn numbers(&self) -> &[T] {
        &self.numbers[..self.lines.len()]
    }

    /// The line of the number at an index.
    pub fn line(&self, index: usize) -> usize {
        self.lines[index]
    }

    /// Whether there was a number more than the table may have.
    pub fn is_too_long(&self) -> bool {
        self.lines.len() == self.numbers.len()
    }
}
