//! Files that a command reads.

use std::fs::File;
use std::io::{self, ErrorKind, Read};
use std::os::fd::AsFd;

use super::InputPath;
use crate::ending::Failure;

/// A file that is read, or standard input. It has no buffer, which nobody would wipe.
pub struct InputFile {
    name: String,
    file: File,
}

impl InputFile {
    pub fn open(path: &InputPath) -> Result<InputFile, Failure> {
        let name = if path.is_standard() { "standard input".into() } else { path.shown().into_owned() };
        let file = if path.is_standard() {
            // Not through std's handle, which has a buffer.
            io::stdin().as_fd().try_clone_to_owned().map(File::from)
        } else {
            File::open(path)
        };
        let file = file.map_err(|error| unreadable(&name, &error))?;
        Ok(InputFile { name, file })
    }

    pub fn name(&self) -> &str {
        &self.name
    }

    /// Reads bytes that come next, as many as are there and fit. There is none at the end of the file alone.
    pub fn read(&mut self, bytes: &mut [u8]) -> Result<usize, Failure> {
        loop {
            match self.file.read(bytes) {
                Err(error) if error.kind() == ErrorKind::Interrupted => {}
                read => return read.map_err(|error| unreadable(&self.name, &error)),
            }
        }
    }

    /// The bytes of a file that has at most so many. It ends at the first byte too many, since a file may have no end.
    pub fn bytes(&mut self, most: usize) -> Result<Vec<u8>, Failure> {
        let mut bytes = vec![0; most + 1];
        let mut length = 0;
        while length < bytes.len() {
            match self.read(&mut bytes[length..])? {
                0 => break,
                count => length += count,
            }
        }
        bytes.truncate(length);
        Ok(bytes)
    }
}

fn unreadable(name: &str, error: &io::Error) -> Failure {
    Failure::at(name, format!("cannot be read: {error}"))
}
