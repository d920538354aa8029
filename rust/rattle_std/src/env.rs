//! The program's arguments and its environment.

use crate::text::String;
pub use std::env::VarError;
use std::ffi::OsString;
use std::io;

/// The arguments.
pub type Args = std::vec::IntoIter<String>;

/// The arguments, the program's name first. Fails where one is no text.
pub fn args() -> io::Result<Args> {
    let texts: Result<Vec<String>, OsString> = std::env::args_os()
        .map(|text| text.into_string().map(String::from))
        .collect();
    match texts {
        Ok(texts) => Ok(texts.into_iter()),
        Err(_) => Err(io::ErrorKind::InvalidData.into()),
    }
}

/// A variable of the environment.
pub fn var(name: &str) -> Result<String, VarError> {
    std::env::var(name).map(String::from)
}
