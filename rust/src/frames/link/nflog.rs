// Made from crates/frame_wire/src/link/nflog.rt by rust/erase.
//! Frames of NFLOG, the link type of what the firewall of Linux logs.

use super::refusal::Refusal;
use super::{Frame, Network, behind};
use crate::wirebase::Octets;
use byteorder::{BigEndian, ByteOrder, LittleEndian};
use core::result;

// The bytes of the family, the version and the resource; and those of the length and the type of an attribute.
const HEADER_LEN: usize = 4;

// The type of the attribute that has the packet.
const PACKET: u16 = 9;

// A frame of NFLOG, or why it is refused.
pub(super) fn read(octets: &[u8]) -> result::Result<Frame<'_>, Refusal> {
    if octets.len() < HEADER_LEN {
        return Err(Refusal::Short);
    }
    if octets[1] != 0 {
        return Err(Refusal::NflogVersion(octets[1]));
    }
    let attributes = behind(octets, HEADER_LEN);
    let payload = packet(attributes, is_lowest_first(attributes))?;
    Ok(Frame {
        network: network_of_nflog(octets[0]),
        tags: &[],
        payload,
    })
}

// The network of an address family of Linux.
fn network_of_nflog(family: u8) -> Network {
    match family {
        2 => Network::Ipv4,
        10 => Network::Ipv6,
        other => Network::Other(other as u16),
    }
}

// Whether the numbers of these attributes have their lower byte first; so it is where there are too few bytes to tell.
fn is_lowest_first(attributes: &[u8]) -> bool {
    attributes.len() < HEADER_LEN || attributes[3] == 0
}

// The packet in these attributes, or why there is none.
fn packet(attributes: &[u8], lowest_first: bool) -> result::Result<&[u8], Refusal> {
    let mut rest = attributes;
    loop {
        if rest.len() < HEADER_LEN {
            return Err(Refusal::Short);
        }
        let len = number_at(rest, 0, lowest_first);
        if len < 4 {
            return Err(Refusal::NflogLen(len as u8));
        }
        let len = len as usize;
        if rest.len() < len {
            return Err(Refusal::Short);
        }
        if number_at(rest, 2, lowest_first) == PACKET {
            return Ok(&rest[HEADER_LEN..len]);
        }
        rest = after(rest, (len + 3) / 4 * 4);
    }
}

// What follows so many bytes; nothing where there are fewer.
fn after(octets: &[u8], len: usize) -> &[u8] {
    if octets.len() < len {
        return &[];
    }
    behind(octets, len)
}

// The number in two bytes. Requires that they are there.
fn number_at(octets: &[u8], place: usize, lowest_first: bool) -> u16 {
    let two = octets.range(place, place + 2);
    if lowest_first {
        return LittleEndian::read_u16(two);
    }
    BigEndian::read_u16(two)
}
