//! Files: std's, with the function by which one is opened.

pub use std::fs::*;
use std::io;
use std::path::Path;

/// Opens a file to read it.
pub fn open(path: impl AsRef<Path>) -> io::Result<File> {
    File::open(path)
}
