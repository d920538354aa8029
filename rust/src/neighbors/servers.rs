// Made from crates/neighbor_wire/src/servers.rt by rust/erase.
//! The addresses of recursive DNS servers, in turn (RFC 8106 section 5.1).

use crate::wirebase::{ByteWriter, Ipv6Address};
use core::fmt;

// The bytes of an address.
const WIDTH: usize = 16;

/// Addresses, one after another.
#[derive(Debug, PartialEq, Eq, Clone, Copy)]
pub struct Servers<'a> {
    pub(crate) octets: &'a [u8],
}

impl<'a> Servers<'a> {
    /// The addresses in these octets, of 16 octets each; fewer octets at the end are ignored.
    pub const fn new(octets: &'a [u8]) -> Servers<'a> {
        Servers { octets }
    }

    /// Writes these addresses over the front of the octets, and gives them as servers. None where the octets are fewer
    /// than the addresses take; then nothing changes.
    pub fn write(addresses: &[Ipv6Address], octets: &'a mut [u8]) -> Option<Servers<'a>> {
        if addresses.len() > octets.len() / WIDTH {
            return None;
        }
        let len = WIDTH * addresses.len();
        let front = &mut octets[..len];
        write_addresses(front, addresses);
        Some(Servers::new(front))
    }

    /// How many they are.
    pub fn len(&self) -> usize {
        self.octets.len() / WIDTH
    }

    /// Whether there are none.
    pub fn is_empty(&self) -> bool {
        self.len() == 0
    }

    /// The addresses in turn.
    pub fn iter(&self) -> ServersIterator<'a> {
        ServersIterator { rest: self.octets }
    }
}

/// The addresses of recursive DNS servers in turn.
#[derive(Debug, Clone)]
pub struct ServersIterator<'a> {
    // The octets after the addresses that were given already.
    rest: &'a [u8],
}

impl<'a> Iterator for ServersIterator<'a> {
    type Item = Ipv6Address;

    fn next(&mut self) -> Option<Ipv6Address> {
        if self.rest.len() < WIDTH {
            return None;
        }
        let (server, behind) = self.rest.split_at(WIDTH);
        self.rest = behind;
        Some(read_address(server))
    }
}

// The address of these octets.
fn read_address(octets: &[u8]) -> Ipv6Address {
    Ipv6Address::from_octets(octets.try_into().unwrap())
}

// Writes addresses into octets of their length.
fn write_addresses(octets: &mut [u8], addresses: &[Ipv6Address]) {
    let mut w = ByteWriter::new(octets);
    put_addresses(&mut w, addresses);
}

// Writes addresses one after another.
fn put_addresses(w: &mut ByteWriter<'_>, addresses: &[Ipv6Address]) {
    for address in addresses {
        put_address(w, address);
    }
}

// Writes an address.
fn put_address(w: &mut ByteWriter<'_>, address: &Ipv6Address) {
    w.put_bytes(&address.octets());
}

/// Prints each address after a space.
impl fmt::Display for Servers<'_> {
    fn fmt(&self, f: &mut fmt::Formatter<'_>) -> fmt::Result {
        fmt_servers(f, self.octets)
    }
}

// Prints each address after a space.
fn fmt_servers(f: &mut fmt::Formatter<'_>, octets: &[u8]) -> fmt::Result {
    for server in (ServersIterator { rest: octets }) {
        write!(f, " {server}")?;
    }
    Ok(())
}
