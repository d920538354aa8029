// Made from crates/header_wire/src/options.rt by rust/erase.
//! The options of a header in turn (RFC 791 section 3.1).

mod display;

use crate::wirebase::Octets;

/// A router alert of value 0: routers look at the packet, though it is not addressed to them (RFC 2113). It is the
/// options of the packets of IGMP from version 2 on (RFC 2236 section 2).
pub const ROUTER_ALERT: [u8; 4] = [0x94, 0x04, 0, 0];

// Kinds of options: of the first two an option is the kind alone, and of the others its length follows.
const END_OF_LIST: u8 = 0;

const NO_OPERATION: u8 = 1;

const ROUTER_ALERT_KIND: u8 = 148;

/// An option of a header.
#[derive(Debug, PartialEq, Eq, Clone, Copy)]
pub enum Ipv4Option<'a> {
    /// Nothing: it stands between options, so that the next one begins at a word.
    NoOperation,
    /// Routers look at the packet (RFC 2113); the value is 0 in all packets but those of other uses that IANA lists.
    RouterAlert(u16),
    /// Any other option, as a router alert with other than two octets of data.
    Other {
        /// The kind: the copied flag, the class and the number.
        kind: u8,
        /// The octets after the length.
        data: &'a [u8],
    },
}

/// Why octets begin with no option: the first check that fails.
#[derive(Debug, PartialEq, Eq, Clone, Copy)]
#[non_exhaustive]
pub enum OptionRefusal {
    /// They end before the length.
    NoLength,
    /// The length, which counts the kind and itself too, is below 2; this is its value.
    Length(u8),
    /// They end before the option does; this is its length.
    Cut(u8),
}

/// The octets of a router alert with this value.
pub fn router_alert(value: u16) -> [u8; 4] {
    let [high, low] = value.to_be_bytes();
    [ROUTER_ALERT_KIND, 4, high, low]
}

/// The options of a header in turn, up to the option that ends the list or to the end of the octets. Where no whole
/// option begins, one refusal is given, and then the end.
#[derive(Debug, Clone)]
pub struct Options<'a> {
    // The octets after the options that were given already.
    rest: &'a [u8],
}

impl<'a> Options<'a> {
    /// The options in these octets, as those of [`Header`](super::Header).
    pub fn new(octets: &'a [u8]) -> Options<'a> {
        Options { rest: octets }
    }
}

impl<'a> Iterator for Options<'a> {
    type Item = Result<Ipv4Option<'a>, OptionRefusal>;

    fn next(&mut self) -> Option<Result<Ipv4Option<'a>, OptionRefusal>> {
        if self.rest.is_empty() || self.rest[0] == END_OF_LIST {
            return None;
        }
        match option_len(self.rest) {
            Ok(len) => {
                let (front, behind) = self.rest.split_at(len);
                self.rest = behind;
                Some(Ok(read_option(front)))
            }
            Err(refusal) => {
                self.rest = &[];
                Some(Err(refusal))
            }
        }
    }
}

// The bytes of the option at the front, or why there is none.
fn option_len(octets: &[u8]) -> Result<usize, OptionRefusal> {
    if octets[0] == NO_OPERATION {
        return Ok(1);
    }
    if octets.len() < 2 {
        return Err(OptionRefusal::NoLength);
    }
    let len = octets[1];
    if len < 2 {
        return Err(OptionRefusal::Length(len));
    }
    if octets.len() < len as usize {
        return Err(OptionRefusal::Cut(len));
    }
    Ok(len as usize)
}

// The option that is all of these octets.
fn read_option(octets: &[u8]) -> Ipv4Option<'_> {
    if octets.len() < 2 {
        return Ipv4Option::NoOperation;
    }
    let kind = octets[0];
    let data = &octets[2..];
    if kind == ROUTER_ALERT_KIND && data.len() == 2 {
        return Ipv4Option::RouterAlert(octets.u16_at(2..4));
    }
    Ipv4Option::Other { kind, data }
}
