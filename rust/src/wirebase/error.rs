// Made from crates/wirebase/src/error.rt by rust/erase.
//! The one type of refusal.

use core::fmt;

/// The octets are not what they should be: too few, or with a field that the format does not have.
#[derive(Debug, PartialEq, Eq, Clone, Copy)]
pub struct Error;

impl fmt::Display for Error {
    fn fmt(&self, f: &mut fmt::Formatter<'_>) -> fmt::Result {
        write!(f, "wire::Error")
    }
}

/// A value, or the refusal of the octets that it should have been read from.
pub type Result<T> = core::result::Result<T, Error>;
