// Made from crates/frame_wire/src/tcp/prefixed.rt by rust/erase.
//! Messages behind their lengths.

use crate::frames::link::behind;
use crate::wirebase::Octets;

// The bytes of a length.
const LENGTH_LEN: usize = 2;

/// One or more messages, one after another, each behind its length in two bytes: as DNS has them over TCP (RFC 1035
/// section 4.2.2).
///
/// ```
/// use control_wire::frames::tcp::Prefixed;
///
/// let messages = Prefixed::new(b"\0\x02hi\0\x03all", 1).unwrap();
/// let mut messages = messages.messages();
/// assert_eq!(messages.next(), Some(&b"hi"[..]));
/// assert_eq!(messages.next(), Some(&b"all"[..]));
/// assert_eq!(messages.next(), None);
/// // A message that is cut, and one that is shorter than two bytes.
/// assert_eq!(Prefixed::new(b"\0\x02hi\0\x03al", 1), None);
/// assert_eq!(Prefixed::new(b"\0\x01h", 2), None);
/// ```
#[derive(Debug, PartialEq, Eq, Clone, Copy)]
pub struct Prefixed<'a> {
    octets: &'a [u8],
}

impl<'a> Prefixed<'a> {
    /// The messages that the octets are. None where there is none, where one is cut or shorter than `least` bytes, or
    /// where bytes follow the last that are no message. With a `least` of 0 a message may be empty.
    pub fn new(octets: &'a [u8], least: usize) -> Option<Prefixed<'a>> {
        if octets.is_empty() {
            return None;
        }
        let mut left = octets;
        while !left.is_empty() {
            let (message, rest) = first(left)?;
            if message.len() < least {
                return None;
            }
            left = rest;
        }
        Some(Prefixed { octets })
    }

    /// The messages in turn, without their lengths.
    pub fn messages(&self) -> Messages<'a> {
        Messages { left: self.octets }
    }
}

/// The messages of a [`Prefixed`] in turn.
#[derive(Debug, Clone)]
pub struct Messages<'a> {
    // The octets after the messages that were returned.
    left: &'a [u8],
}

impl<'a> Iterator for Messages<'a> {
    type Item = &'a [u8];

    fn next(&mut self) -> Option<&'a [u8]> {
        let (message, rest) = first(self.left)?;
        self.left = rest;
        Some(message)
    }
}

// The message at the start of the octets, and what follows it; None where no whole one is there.
fn first(octets: &[u8]) -> Option<(&[u8], &[u8])> {
    if octets.len() < LENGTH_LEN {
        return None;
    }
    let end = LENGTH_LEN + octets.u16_at(0..2) as usize;
    if octets.len() < end {
        return None;
    }
    Some((&octets[LENGTH_LEN..end], behind(octets, end)))
}
