//! The paths of files on a command line. Their types say which files are read and which are written: a file is opened by one of
//! these alone, so that no file of a command line is missed where all of them are looked at.

use std::borrow::Cow;
use std::ffi::{OsStr, OsString};
use std::path::Path;

/// A file of this name is standard input, or standard output where it is written.
const STANDARD: &str = "-";

/// The path of a file that is read.
#[derive(Clone)]
pub struct InputPath(OsString);

/// The path of a file that is written.
#[derive(Clone)]
pub struct OutputPath(OsString);

macro_rules! paths {
    ($($path:ident),*) => { $(
        impl From<OsString> for $path {
            fn from(path: OsString) -> $path {
                $path(path)
            }
        }

        impl $path {
            /// Whether it is standard input or output.
            pub fn is_standard(&self) -> bool {
                self.0 == STANDARD
            }

            /// The path for a message.
            pub fn shown(&self) -> Cow<'_, str> {
                self.0.to_string_lossy()
            }
        }

        impl AsRef<Path> for $path {
            fn as_ref(&self) -> &Path {
                Path::new::<OsStr>(&self.0)
            }
        }
    )* };
}

paths!(InputPath, OutputPath);
