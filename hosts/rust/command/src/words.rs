//! Where random words come from. Either way no word is handed out twice.

use bliss_box::Secret;

use crate::ending::Failure;
use crate::files::{InputPath, NumberFile};

/// A source of random words.
pub enum Words {
    /// The system's random source.
    System,
    /// A file, from its start to its end.
    File(NumberFile),
}

impl Words {
    pub fn of(path: Option<&InputPath>) -> Result<Words, Failure> {
        Ok(match path {
            None => Words::System,
            Some(path) => Words::File(NumberFile::secret(path)?),
        })
    }

    /// The next `count` words, or as many as a file has left.
    pub fn take(&mut self, count: usize) -> Result<Secret<u64>, Failure> {
        let file = match self {
            Words::System => {
                return Secret::system_words(count).map_err(|error| Failure::at("the system's random source", error))
            }
            Words::File(file) => file,
        };
        let mut words = Secret::zeroed(count);
        for taken in 0..count {
            match file.number()? {
                Some(word) => words[taken] = word,
                None => return Ok(Secret::from(words[..taken].to_vec())),
            }
        }
        Ok(words)
    }

    /// The name of the file.
    pub fn file_name(&self) -> Option<&str> {
        match self {
            Words::System => None,
            Words::File(file) => Some(file.name()),
        }
    }
}
