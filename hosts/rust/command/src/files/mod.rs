//! The files of a command line: their paths, those that are read, those that are written, and that none is both.

mod input_file;
mod number_file;
mod output_file;
mod path;
pub mod same_file;

pub use input_file::InputFile;
pub use number_file::{empty, NumberFile, Table};
pub use output_file::OutputFile;
pub use path::{InputPath, OutputPath};
