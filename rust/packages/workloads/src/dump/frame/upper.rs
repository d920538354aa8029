// Made from crates/workloads/src/dump/frame/upper.rt by rust/erase.
//! The messages after the headers of IP.

use crate::dump::frame::Sources;
use crate::random::Random;
use crate::responses::message::{self, low, put, put_u16};
use control_wire::frames::Addresses;
use control_wire::{IpProtocol, checksum};

// The kinds of messages, of which the first three are of DNS.
const KINDS: u64 = 9;

// The protocols above IP, by their numbers.
const ICMP: u8 = 1;

const IGMP: u8 = 2;

const UDP: u8 = 17;

const ICMPV6: u8 = 58;

// The bytes of a datagram's header.
const UDP_HEADER_LEN: usize = 8;

// The bytes between a packet of DHCP and its options, beside the addresses in front.
const DHCP_ZEROS_LEN: usize = 202;

/// Whether the message of this number goes over IPv4.
pub fn is_v4(number: u64) -> bool {
    matches!(number % KINDS, 0 | 1 | 3 | 4 | 5)
}

/// Whether a hop-by-hop header precedes the message of this number.
pub fn has_alert(number: u64) -> bool {
    number % KINDS == 8
}

/// Writes a message to the start of the octets, and returns its protocol and how many bytes it has.
pub fn write(
    octets: &mut [u8],
    number: u64,
    addresses: &Addresses,
    sources: &Sources,
    random: &mut Random,
) -> (u8, usize) {
    let (protocol, len) = match number % KINDS {
        0 | 1 | 2 => (UDP, write_names(octets, sources, random)),
        3 => (UDP, write_lease(octets, number)),
        4 if (number >> 16) % 2 == 0 => (ICMP, write_error(octets, number, sources)),
        4 => (ICMP, write_echo(octets, 8, number, sources)),
        5 => (IGMP, write_member(octets, number)),
        6 => (ICMPV6, write_echo(octets, 128, number, sources)),
        7 => (ICMPV6, write_neighbor(octets, number)),
        _ => (ICMPV6, write_report(octets, number)),
    };
    let len = len.min(octets.len());
    seal(&mut octets[..len], protocol, addresses);
    (protocol, len)
}

// Writes the checksum of a message.
fn seal(octets: &mut [u8], protocol: u8, addresses: &Addresses) {
    if octets.len() < UDP_HEADER_LEN || octets.len() > 2_000 {
        return;
    }
    let len = octets.len() as u32;
    match protocol {
        UDP => checksum::fill(octets, 6..8, addresses.sum_before(IpProtocol::Udp, len)),
        ICMPV6 => checksum::fill(octets, 2..4, addresses.sum_before(IpProtocol::Icmpv6, len)),
        _ => checksum::fill(octets, 2..4, 0),
    }
}

// Writes a datagram's header before a payload of this many bytes, and says how many both have.
fn write_ports(octets: &mut [u8], from: u16, to: u16, payload_len: usize) -> usize {
    let room = octets.len().saturating_sub(UDP_HEADER_LEN);
    let len = UDP_HEADER_LEN + payload_len.min(room);
    let place = put_u16(octets, 0, from);
    let place = put_u16(octets, place, to);
    put_u16(octets, place, low(len as u64));
    len
}

// Writes a short response of DNS, and returns its length in bytes.
fn write_names(octets: &mut [u8], sources: &Sources, random: &mut Random) -> usize {
    if octets.len() < UDP_HEADER_LEN {
        return 0;
    }
    let records = 1 + random.below(6);
    let payload = &mut octets[UDP_HEADER_LEN..];
    let len = message::write(payload, &sources.letters, random, records);
    write_ports(octets, 53, 33_000, len)
}

// Writes an acknowledgement of DHCP, and returns its length in bytes.
fn write_lease(octets: &mut [u8], number: u64) -> usize {
    let id = number.to_be_bytes();
    let place = put(octets, UDP_HEADER_LEN, &[2, 1, 6, 0]);
    let place = put(octets, place, &id[..4]);
    let place = put(
        octets,
        place,
        &[0, id[3], id[4] & 0x80, 0, 10, 2, id[5], id[6]],
    );
    let place = put(
        octets,
        place,
        &[10, 1, id[0], id[1], 10, 1, 0, id[2], 10, 3, 0, id[7]],
    );
    let place = put(octets, place, &[0x52, 0x54, 0, id[2], id[3], id[4]]);
    let place = put(octets, place, &[0; DHCP_ZEROS_LEN]);
    let place = put(octets, place, &[0x63, 0x82, 0x53, 0x63, 53, 1, 5]);
    let place = put(
        octets,
        place,
        &[54, 4, 10, 1, 0, 1, 51, 4, 0, 0, id[5], id[6]],
    );
    let place = put(octets, place, &[58, 4, 0, 0, 7, 8, 59, 4, 0, 0, 12, id[7]]);
    let place = put(octets, place, &[1, 4, 255, 255, 0, 0, 3, 4, 10, 1, 0, 1]);
    let place = put(
        octets,
        place,
        &[6, 8, 10, 1, 0, 1, 9, 9, 9, 9, 12, 4, b'h', b'o', b's', b't'],
    );
    let end = put(octets, place, &[255]);
    write_ports(octets, 67, 68, end.saturating_sub(UDP_HEADER_LEN))
}

// Writes an echo of a type, and returns its length in bytes.
fn write_echo(octets: &mut [u8], type_: u8, number: u64, sources: &Sources) -> usize {
    let len = 32 + (number >> 20) % 1_400;
    let place = put(octets, 0, &[type_, 0, 0, 0]);
    let place = put_u16(octets, place, low(number));
    let place = put_u16(octets, place, low(number >> 16));
    put(octets, place, sources.pool.part(number >> 32, len as usize))
}

// Writes an ICMP error about a datagram, and returns its length in bytes.
fn write_error(octets: &mut [u8], number: u64, sources: &Sources) -> usize {
    let id = number.to_be_bytes();
    let len = 8 + (number >> 20) % 500;
    let type_ = if id[7] % 2 == 0 { 3 } else { 11 };
    let place = put(octets, 0, &[type_, id[0] % 16, 0, 0, 0, 0, 0, 0, 0x45, 0]);
    let place = put_u16(octets, place, low(20 + len));
    let place = put(octets, place, &[id[1], id[2], 0, 0, id[7], id[6], 0, 0]);
    let place = put(octets, place, &[10, 0, id[3], id[4], 10, 1, id[5], id[6]]);
    put(octets, place, sources.pool.part(number >> 32, len as usize))
}

// Writes a query or a report of IGMP, and returns its length in bytes.
fn write_member(octets: &mut [u8], number: u64) -> usize {
    let id = number.to_be_bytes();
    let type_ = [0x11, 0x12, 0x16, 0x17][id[0] as usize % 4];
    put(octets, 0, &[type_, id[1] % 128, 0, 0, 224, 0, 1, id[2]])
}

// Writes a solicitation of a neighbor or its answer, and returns its length in bytes.
fn write_neighbor(octets: &mut [u8], number: u64) -> usize {
    let id = number.to_be_bytes();
    let (type_, flags, option) = if id[0] % 2 == 0 {
        (135, 0, 1)
    } else {
        (136, id[4] & 0xe0, 2)
    };
    let place = put(octets, 0, &[type_, 0, 0, 0, flags, 0, 0, 0]);
    let place = put(octets, place, &[0xfe, 0x80, 0, 0, 0, 0, 0, 0]);
    let place = put(octets, place, &id);
    put(
        octets,
        place,
        &[option, 1, 0x52, 0x54, 0, id[1], id[2], id[3]],
    )
}

// Writes a report of groups that are listened to, and returns its length in bytes.
fn write_report(octets: &mut [u8], number: u64) -> usize {
    let id = number.to_be_bytes();
    let records = 1 + id[1] % 8;
    let mut place = put(octets, 0, &[143, 0, 0, 0, 0, 0, 0, records]);
    for record in 0..records {
        place = put(
            octets,
            place,
            &[1 + id[4] % 6, 0, 0, 0, 0xff, 2, 0, 0, 0, 0, 0, 0],
        );
        place = put(octets, place, &[0, 0, 0, 1, 0xff, record, id[2], id[3]]);
    }
    place
}
