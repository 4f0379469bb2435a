//! Files that a command writes.

use std::fs::{self, File, OpenOptions};
use std::io::{self, ErrorKind, Write};
use std::os::unix::fs::OpenOptionsExt;
use std::path::{Path, PathBuf};
use std::process;

use super::OutputPath;
use crate::ending::Failure;

/// A file that is written beside the one of its name, and replaces it once it is whole. A command that fails leaves the older file
/// as it was. A pipe or a device, which has nothing to lose, is written as it is.
pub struct OutputFile {
    name: String,
    file: File,
    beside: Option<Beside>,
}

/// A file beside its target, removed unless it has replaced it.
struct Beside {
    path: PathBuf,
    target: PathBuf,
}

impl OutputFile {
    pub fn create(path: &OutputPath) -> Result<OutputFile, Failure> {
        let name = path.shown().into_owned();
        let (file, beside) = open(path.as_ref()).map_err(|error| unwritable(&name, &error))?;
        Ok(OutputFile { name, file, beside })
    }

    pub fn write(&mut self, text: &[u8]) -> Result<(), Failure> {
        self.file.write_all(text).map_err(|error| unwritable(&self.name, &error))
    }

    /// Waits until all that was written is on the disk, so that nothing but the replacing is left that could fail.
    pub fn sync(&self) -> Result<(), Failure> {
        match self.beside {
            Some(_) => self.file.sync_all().map_err(|error| unwritable(&self.name, &error)),
            None => Ok(()),
        }
    }

    /// Puts the file in the place of its name.
    pub fn keep(self) -> Result<(), Failure> {
        match &self.beside {
            Some(Beside { path, target }) => fs::rename(path, target).map_err(|error| unwritable(&self.name, &error)),
            None => Ok(()),
        }
    }
}

impl Drop for Beside {
    /// After it has replaced its target there is nothing of this name.
    fn drop(&mut self) {
        let _ = fs::remove_file(&self.path);
    }
}

fn open(path: &Path) -> io::Result<(File, Option<Beside>)> {
    match fs::metadata(path) {
        Ok(metadata) => {
            // A directory, or a file that may not be written, is not replaced either: the error says so.
            let file = OpenOptions::new().write(true).open(path)?;
            if metadata.is_file() {
                create_beside(fs::canonicalize(path)?)
            } else {
                Ok((file, None))
            }
        }
        Err(error) if error.kind() == ErrorKind::NotFound && names_a_file(path) => create_beside(end_of_links(path)),
        Err(error) => Err(error),
    }
}

/// Creates a file that only its owner may read. The name is new, so that nobody else's file or link is written.
fn create_beside(target: PathBuf) -> io::Result<(File, Option<Beside>)> {
    let mut number = 0;
    loop {
        let path = target.with_file_name(format!(".bliss-box-{}-{number}", process::id()));
        match OpenOptions::new().write(true).create_new(true).mode(0o600).open(&path) {
            Err(error) if error.kind() == ErrorKind::AlreadyExists => number += 1,
            created => return Ok((created?, Some(Beside { path, target }))),
        }
    }
}

/// A path that ends with a slash names a folder.
fn names_a_file(path: &Path) -> bool {
    !matches!(path.as_os_str().as_encoded_bytes().last(), None | Some(b'/'))
}

/// Where a path leads whose links end at a file that is not there yet.
pub fn end_of_links(path: &Path) -> PathBuf {
    match fs::read_link(path) {
        Ok(link) => end_of_links(&path.with_file_name(link)),
        Err(_) => path.to_owned(),
    }
}

fn unwritable(name: &str, error: &io::Error) -> Failure {
    Failure::at(name, format!("cannot be written: {error}"))
}
