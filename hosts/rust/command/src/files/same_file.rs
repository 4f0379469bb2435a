//! No file is both read and written, and none is written twice. Files are told apart by device and inode, so that every path and
//! every link to a file is that file.

use std::ffi::OsString;
use std::fmt::Display;
use std::fs::{self, File, Metadata};
use std::io::{self, ErrorKind};
use std::os::fd::AsFd;
use std::os::unix::fs::MetadataExt;
use std::path::Path;

use super::output_file::end_of_links;
use super::{InputPath, OutputPath};
use crate::ending::Failure;

/// Looks at the files of a command line before any of them is opened, each with the name of its argument: a file that is written
/// must be none of the others.
pub fn check(inputs: &[(String, &InputPath)], outputs: &[(String, &OutputPath)]) -> Result<(), Failure> {
    let mut others: Vec<RegularFile> = inputs.iter().filter_map(RegularFile::read).collect();
    let outputs = outputs.iter().filter_map(RegularFile::written);
    for output in outputs.chain(RegularFile::standard_output()) {
        if let Some(other) = others.iter().find(|other| other.place == output.place) {
            return Err(Failure::at(output.name, format!("this is the same file as {}", other.name)));
        }
        others.push(output);
    }
    Ok(())
}

/// A file that is there, or is to be. A pipe or a device is none: nothing that can be read there is lost by writing.
struct RegularFile {
    name: String,
    place: Place,
}

/// Where a file is.
#[derive(PartialEq)]
enum Place {
    /// The inode of a file that is there.
    There(Inode),
    /// The inode of the folder and the name of a file that is not there yet.
    New(Inode, OsString),
}

#[derive(PartialEq)]
struct Inode {
    device: u64,
    number: u64,
}

impl RegularFile {
    fn read((argument, path): &(String, &InputPath)) -> Option<RegularFile> {
        let metadata = if path.is_standard() { metadata_of(io::stdin()) } else { fs::metadata(path) };
        RegularFile::of(format_args!("{argument} {}", path.shown()), there(metadata))
    }

    fn written((argument, path): &(String, &OutputPath)) -> Option<RegularFile> {
        if path.is_standard() {
            return None;
        }
        let place = match fs::metadata(path) {
            Err(error) if error.kind() == ErrorKind::NotFound => new(path.as_ref()),
            metadata => there(metadata),
        };
        RegularFile::of(format_args!("{argument} {}", path.shown()), place)
    }

    fn standard_output() -> Option<RegularFile> {
        RegularFile::of("standard output", there(metadata_of(io::stdout())))
    }

    fn of(name: impl Display, place: Option<Place>) -> Option<RegularFile> {
        Some(RegularFile { name: name.to_string(), place: place? })
    }
}

/// The place of what has this metadata, if it is a regular file.
fn there(metadata: io::Result<Metadata>) -> Option<Place> {
    let metadata = metadata.ok().filter(Metadata::is_file)?;
    Some(Place::There(inode(&metadata)))
}

/// The place of a file that is made where nothing is.
fn new(path: &Path) -> Option<Place> {
    let target = Path::new(".").join(end_of_links(path));
    let folder = fs::metadata(target.parent()?).ok()?;
    Some(Place::New(inode(&folder), target.file_name()?.to_owned()))
}

fn inode(metadata: &Metadata) -> Inode {
    Inode { device: metadata.dev(), number: metadata.ino() }
}

fn metadata_of(stream: impl AsFd) -> io::Result<Metadata> {
    File::from(stream.as_fd().try_clone_to_owned()?).metadata()
}
