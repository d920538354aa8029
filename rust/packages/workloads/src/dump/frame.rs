// Made from crates/workloads/src/dump/frame.rt by rust/erase.
//! Frames of an Ethernet, with the messages that control a network in them.

mod upper;

use crate::random::{Pool, Random};
use crate::responses::message::{Letters, low, put, put_u16};
use control_wire::frames::Addresses;
use control_wire::{Ipv4Address, Ipv6Address, checksum};

/// The bytes of the longest frame.
pub const MOST_FRAME_LEN: usize = 1_514;

// The bytes of the shortest frame, without its checksum.
const LEAST_FRAME_LEN: usize = 60;

// The bytes of the headers.
const IPV4_HEADER_LEN: usize = 20;

const IPV6_HEADER_LEN: usize = 40;

const HOP_BY_HOP_LEN: usize = 8;

/// What messages are made from.
pub struct Sources {
    pub pool: Pool,
    pub letters: Letters,
}

/// Writes a frame to the start of the octets, and returns its length in bytes.
pub fn write(octets: &mut [u8], sources: &Sources, random: &mut Random) -> usize {
    let number = random.next();
    let is_v4 = upper::is_v4(number);
    let start = put_link(octets, number, is_v4).min(octets.len());
    let datagram = &mut octets[start..];
    let len = if is_v4 {
        write_v4(datagram, number, sources, random)
    } else {
        write_v6(datagram, number, sources, random)
    };
    let end = start + len.min(octets.len() - start);
    if end >= LEAST_FRAME_LEN {
        return end;
    }
    put(octets, end, &[0; LEAST_FRAME_LEN][end..])
}

// Writes the header of a frame, of which one of eight has a VLAN tag, and returns the place after it.
fn put_link(octets: &mut [u8], number: u64, is_v4: bool) -> usize {
    let place = put(octets, 0, &number.to_be_bytes());
    let place = put(octets, place, &[0x52, 0x54, 0, 1]);
    let place = if (number >> 8) % 8 == 0 {
        let place = put_u16(octets, place, 0x8100);
        put_u16(octets, place, low(number >> 12) % 4_096)
    } else {
        place
    };
    put_u16(octets, place, if is_v4 { 0x0800 } else { 0x86dd })
}

// The hops that a datagram has left.
fn hops(number: u64) -> u8 {
    (number >> 56) as u8
}

// Writes a datagram of IPv4, and returns its length in bytes.
fn write_v4(octets: &mut [u8], number: u64, sources: &Sources, random: &mut Random) -> usize {
    if octets.len() < IPV4_HEADER_LEN {
        return 0;
    }
    let source = Ipv4Address::from_octets((low(number) as u32 + 0x0a00_0000).to_be_bytes());
    let destination =
        Ipv4Address::from_octets((low(number >> 16) as u32 + 0x0a01_0000).to_be_bytes());
    let addresses = Addresses::V4(source, destination);
    let room = octets.len() - IPV4_HEADER_LEN;
    let (protocol, len) = upper::write(
        &mut octets[IPV4_HEADER_LEN..],
        number,
        &addresses,
        sources,
        random,
    );
    let len = len.min(room);
    let place = put_u16(octets, 0, 0x4500);
    let place = put_u16(octets, place, low(IPV4_HEADER_LEN as u64 + len as u64));
    let place = put_u16(octets, place, low(number >> 24));
    let place = put(octets, place, &[0, 0, hops(number), protocol, 0, 0]);
    let place = put(octets, place, &source.octets());
    put(octets, place, &destination.octets());
    seal(&mut octets[..IPV4_HEADER_LEN], 10, 0);
    IPV4_HEADER_LEN + len
}

// The address of a host of the link.
fn host(number: u64) -> Ipv6Address {
    Ipv6Address::new(
        0xfe80,
        0,
        0,
        0,
        0x5054,
        0xff,
        low(number >> 16),
        low(number),
    )
}

// Writes an IPv6 packet, after a hop-by-hop header where that is wanted, and returns its length in bytes.
fn write_v6(octets: &mut [u8], number: u64, sources: &Sources, random: &mut Random) -> usize {
    let extended = if upper::has_alert(number) {
        HOP_BY_HOP_LEN
    } else {
        0
    };
    let start = IPV6_HEADER_LEN + extended;
    if octets.len() < start {
        return 0;
    }
    let source = host(number);
    let destination = host(number >> 20);
    let addresses = Addresses::V6(source, destination);
    let room = octets.len() - start;
    let (protocol, len) = upper::write(&mut octets[start..], number, &addresses, sources, random);
    let len = len.min(room);
    let next = if extended == 0 { protocol } else { 0 };
    let place = put(octets, 0, &[0x60, 0, 0, 0]);
    let place = put_u16(octets, place, low(extended as u64 + len as u64));
    let place = put(octets, place, &[next, hops(number)]);
    let place = put(octets, place, &source.octets());
    let place = put(octets, place, &destination.octets());
    if extended != 0 {
        put(octets, place, &[protocol, 0, 5, 2, 0, 0, 1, 0]);
    }
    start + len
}

// Writes the checksum of octets, with the sum of what else it covers, at an offset in them.
fn seal(octets: &mut [u8], place: usize, sum: u16) {
    if octets.len() >= 12 && place <= 10 {
        checksum::fill(octets, place..place + 2, sum);
    }
}
