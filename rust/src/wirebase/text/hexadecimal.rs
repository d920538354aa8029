// Made from crates/wirebase/src/text/hexadecimal.rt by rust/erase.
//! Octets as hexadecimal digits, two for each. Nothing branches by a digit, so that many are converted at once.

use crate::wirebase::text::sink::{Sink, ToFormatter};
use core::fmt;

// The number of octets that are converted at a time, and the digits of these.
const OCTETS: usize = 64;

const DIGITS: usize = 2 * OCTETS;

/// Puts octets in lower-case hexadecimal digits, two for each.
#[inline]
pub fn put_hex<O, S: Sink<O>>(output: &mut O, octets: &[u8]) -> Result<(), S::Error> {
    for octets in octets.chunks(OCTETS) {
        put_chunk::<O, S>(output, octets)?;
    }
    Ok(())
}

// Puts the digits of at most so many octets.
fn put_chunk<O, S: Sink<O>>(output: &mut O, octets: &[u8]) -> Result<(), S::Error> {
    let mut room = [0; DIGITS];
    let digits = &mut room[..2 * octets.len()];
    encode(octets, digits);
    S::put(output, digits)
}

// The digits of octets, in lower case.
fn encode(octets: &[u8], digits: &mut [u8]) {
    for i in 0..octets.len() {
        digits[2 * i] = digit_of(octets[i] / 16);
        digits[2 * i + 1] = digit_of(octets[i] % 16);
    }
}

// The digit of a value.
fn digit_of(value: u8) -> u8 {
    if value < 10 {
        b'0' + value
    } else {
        b'a' - 10 + value
    }
}

/// Puts octets in hexadecimal digits, and a dash where there are none.
pub fn put_octets<O, S: Sink<O>>(output: &mut O, octets: &[u8]) -> Result<(), S::Error> {
    if octets.is_empty() {
        return S::put_str(output, "-");
    }
    put_hex::<O, S>(output, octets)
}

/// Octets that print as two hexadecimal digits each.
#[derive(Clone, Copy)]
pub struct Hex<'a>(pub &'a [u8]);

impl fmt::Display for Hex<'_> {
    fn fmt(&self, f: &mut fmt::Formatter<'_>) -> fmt::Result {
        put_hex::<_, ToFormatter>(f, self.0)
    }
}

/// Octets that print as two hexadecimal digits each, and as a dash where there are none.
#[derive(Clone, Copy)]
pub struct HexOrDash<'a>(pub &'a [u8]);

impl fmt::Display for HexOrDash<'_> {
    fn fmt(&self, f: &mut fmt::Formatter<'_>) -> fmt::Result {
        put_octets::<_, ToFormatter>(f, self.0)
    }
}

/// Octets that print as two hexadecimal digits each, with colons between them.
#[derive(Clone, Copy)]
pub struct HexColons<'a>(pub &'a [u8]);

impl fmt::Display for HexColons<'_> {
    fn fmt(&self, f: &mut fmt::Formatter<'_>) -> fmt::Result {
        let [first, rest @ ..] = self.0 else {
            return Ok(());
        };
        write!(f, "{}", Hex(&[*first]))?;
        fmt_behind_colons(f, rest)
    }
}

// Prints each octet as two digits, after a colon.
fn fmt_behind_colons(f: &mut fmt::Formatter<'_>, octets: &[u8]) -> fmt::Result {
    for octet in octets {
        write!(f, ":{}", Hex(&[*octet]))?;
    }
    Ok(())
}
