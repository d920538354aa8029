// Made from rust/rattle_std/src/text.rs by rust/erase.
//! Texts, whose growth answers a `Result`.

use crate::rattle_std::alloc::AllocError;
use std::fmt::{Display, Write};
use std::ops::Deref;

/// A text.
#[derive(Debug, Default, Clone, PartialEq, Eq)]
pub struct String(std::string::String);

impl String {
    /// No text.
    pub fn new() -> String {
        String(std::string::String::new())
    }

    /// Puts a text behind it.
    pub fn push_str(&mut self, text: &str) -> Result<(), AllocError> {
        self.0.push_str(text);
        Ok(())
    }
}

impl From<std::string::String> for String {
    fn from(text: std::string::String) -> String {
        String(text)
    }
}

impl Write for String {
    fn write_str(&mut self, text: &str) -> std::fmt::Result {
        self.0.write_str(text)
    }
}

impl Deref for String {
    type Target = std::string::String;

    fn deref(&self) -> &std::string::String {
        &self.0
    }
}

/// What a value prints.
pub trait ToStringIn {
    /// The text.
    fn to_string_in(&self) -> Result<std::string::String, AllocError>;
}

impl<T: Display + ?Sized> ToStringIn for T {
    fn to_string_in(&self) -> Result<std::string::String, AllocError> {
        Ok(self.to_string())
    }
}

/// Texts one after another.
pub trait JoinIn {
    /// The text.
    fn concat_in(&self) -> Result<String, AllocError>;
}

impl JoinIn for [&str] {
    fn concat_in(&self) -> Result<String, AllocError> {
        Ok(String(self.concat()))
    }
}
