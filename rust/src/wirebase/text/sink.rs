// Made from crates/wirebase/src/text/sink.rt by rust/erase.
//! What texts are put into.

use core::fmt;

/// A way to put texts into outputs of type `O`, so that one function prints for `Display` and for `io::Write`.
pub trait Sink<O> {
    /// Why a text can't be put.
    type Error;

    /// Puts a text, which has to be ASCII, into the output.
    ///
    /// # Panics
    ///
    /// May panic where what is asked for above does not hold.
    fn put(output: &mut O, text: &[u8]) -> Result<(), Self::Error>;

    /// Puts a string into the output.
    fn put_str(output: &mut O, text: &str) -> Result<(), Self::Error>;
}

/// Texts go into a formatter that sets no width, precision or sign, as that of a `Display` does for `{}`.
pub struct ToFormatter;

impl Sink<fmt::Formatter<'_>> for ToFormatter {
    type Error = fmt::Error;

    fn put(output: &mut fmt::Formatter<'_>, text: &[u8]) -> fmt::Result {
        // ASCII is UTF-8.
        output.write_str(core::str::from_utf8(text).unwrap_or(""))
    }

    fn put_str(output: &mut fmt::Formatter<'_>, text: &str) -> fmt::Result {
        output.write_str(text)
    }
}
