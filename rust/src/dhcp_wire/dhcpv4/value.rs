// Made from crates/dhcp_wire/src/dhcpv4/value.rt by rust/erase.
//! The data of an option by the format that its kind has.

use super::options::DhcpOption;
use super::table::{Format, format_of};
use super::tables::MessageType;
use crate::wirebase::Ipv4Address;
use byteorder::{BigEndian, ByteOrder};

/// The data of an option by the format that its kind has. Data whose length does not fit that format are `Octets`, and
/// so are those of a kind whose format is not known.
#[derive(Debug, PartialEq, Eq, Clone, Copy)]
pub enum OptionValue<'a> {
    /// An address of IPv4: 4 bytes.
    Address(Ipv4Address),
    /// Addresses of IPv4: the bytes of the data, a multiple of 4, of which [`OptionAddresses`] gives the addresses. A
    /// filter or a route takes two of them.
    Addresses(&'a [u8]),
    /// A time, in seconds: 4 bytes.
    Seconds(u32),
    /// A number of 2 bytes.
    Number(u16),
    /// A number of 1 byte; where it is a boolean, 0 is false and 1 is true.
    Byte(u8),
    /// The type of the message: 1 byte.
    MessageType(MessageType),
    /// A text, of whatever bytes.
    Text(&'a [u8]),
    /// Kinds of option, one byte each.
    Kinds(&'a [u8]),
    /// Other data.
    Octets(&'a [u8]),
}

impl<'a> DhcpOption<'a> {
    /// The data by the format that the kind has.
    pub fn value(&self) -> OptionValue<'a> {
        let body = self.data;
        match format_of(self.kind) {
            Format::Address => address(body),
            Format::Addresses => addresses(body),
            Format::Seconds => seconds(body),
            Format::Number => number(body),
            Format::Byte => byte(body),
            Format::MessageType => message_type(body),
            Format::Text => OptionValue::Text(body),
            Format::Kinds => OptionValue::Kinds(body),
            Format::Octets => OptionValue::Octets(body),
        }
    }
}

// An address of four bytes.
fn address(body: &[u8]) -> OptionValue<'_> {
    if body.len() != 4 {
        return OptionValue::Octets(body);
    }
    OptionValue::Address(Ipv4Address::new(body[0], body[1], body[2], body[3]))
}

// Whole addresses.
fn addresses(body: &[u8]) -> OptionValue<'_> {
    if body.len() % 4 != 0 {
        return OptionValue::Octets(body);
    }
    OptionValue::Addresses(body)
}

// A number of four bytes.
fn seconds(body: &[u8]) -> OptionValue<'_> {
    if body.len() != 4 {
        return OptionValue::Octets(body);
    }
    OptionValue::Seconds(BigEndian::read_u32(body))
}

// A number of two bytes.
fn number(body: &[u8]) -> OptionValue<'_> {
    if body.len() != 2 {
        return OptionValue::Octets(body);
    }
    OptionValue::Number(BigEndian::read_u16(body))
}

// A number of one byte.
fn byte(body: &[u8]) -> OptionValue<'_> {
    if body.len() != 1 {
        return OptionValue::Octets(body);
    }
    OptionValue::Byte(body[0])
}

// A type of message.
fn message_type(body: &[u8]) -> OptionValue<'_> {
    if body.len() != 1 {
        return OptionValue::Octets(body);
    }
    OptionValue::MessageType(MessageType::from(body[0]))
}

/// The addresses in the data of an option in turn. Fewer than four bytes at the end are ignored.
///
/// ```
/// use control_wire::Ipv4Address;
/// use control_wire::dhcpv4::OptionAddresses;
///
/// let mut routers = OptionAddresses::new(&[192, 0, 2, 1, 192, 0, 2, 2]);
/// assert_eq!(routers.next(), Some(Ipv4Address::new(192, 0, 2, 1)));
/// assert_eq!(routers.next(), Some(Ipv4Address::new(192, 0, 2, 2)));
/// assert_eq!(routers.next(), None);
/// ```
#[derive(Debug, Clone)]
pub struct OptionAddresses<'a> {
    // The octets after the addresses that were given already.
    left: &'a [u8],
}

impl<'a> OptionAddresses<'a> {
    /// The addresses in these octets, from their front on.
    pub fn new(octets: &'a [u8]) -> OptionAddresses<'a> {
        OptionAddresses { left: octets }
    }
}

impl Iterator for OptionAddresses<'_> {
    type Item = Ipv4Address;

    fn next(&mut self) -> Option<Ipv4Address> {
        match first_address(self.left) {
            Some((address, rest)) => {
                self.left = rest;
                Some(address)
            }
            None => None,
        }
    }
}

// The first address, and what follows it. None where there are fewer than four octets.
pub(super) fn first_address(octets: &[u8]) -> Option<(Ipv4Address, &[u8])> {
    if octets.len() < 4 {
        return None;
    }
    let address = Ipv4Address::new(octets[0], octets[1], octets[2], octets[3]);
    Some((address, past_address(octets)))
}

// What follows the first address.
fn past_address(octets: &[u8]) -> &[u8] {
    &octets[4..]
}
