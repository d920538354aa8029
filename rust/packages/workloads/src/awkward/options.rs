// Made from crates/workloads/src/awkward/options.rt by rust/erase.
//! Lists of options that are padding, of kinds that are not known, empty, or too long.

use crate::digest::neighbors::add_ndisc;
use crate::digest::options::{add_hop_by_hop, add_option};
use crate::digest::{Digest, lease};
use byteorder::{BigEndian, ByteOrder};
use control_wire::ipv6option::Ipv6OptionsIterator;
use control_wire::{dhcpv4, icmpv6, ipv6hbh, ndisc};

/// The bytes of the longest packet here.
pub const PACKET_LEN: usize = 576;

// The bytes of a DHCP packet before its options, and its cookie (RFC 2131 section 3).
const OPTIONS: usize = 240;

const COOKIE: u32 = 0x6382_5363;

/// Reads a DHCP packet whose options are padding and options of unknown kinds, with the one that is needed at the end.
pub fn read_lease(number: u64, octets: &mut [u8; PACKET_LEN], digest: &mut Digest) {
    octets.fill(0);
    octets[0] = 1;
    octets[1] = 1;
    octets[2] = 6;
    BigEndian::write_u64(&mut octets[4..12], number);
    BigEndian::write_u32(&mut octets[236..240], COOKIE);
    let start = OPTIONS + (number % 200) as usize;
    for place in 0..64 {
        let at = start + 2 * place;
        octets[at] = 128 + ((number >> (place % 32)) % 64) as u8;
        octets[at + 1] = if place < 62 {
            ((number >> place) % 2 * 2) as u8
        } else {
            0
        };
    }
    octets[PACKET_LEN - 4..].copy_from_slice(&[53, 1, 1, 255]);
    let packet = dhcpv4::Packet::new_unchecked(&octets[..]);
    match dhcpv4::Repr::parse(&packet) {
        Ok(message) => lease::add_lease(&message, digest),
        Err(_) => digest.add(1),
    }
    for option in packet.options() {
        lease::add_option(&option, digest);
    }
}

/// Reads a router's advertisement whose options are repeated, unknown, or, in one of eight cases, of length 0.
pub fn read_neighbor(number: u64, octets: &mut [u8; PACKET_LEN], digest: &mut Digest) {
    octets[..16].copy_from_slice(&[134, 0, 0, 0, 64, 0, 7, 8, 0, 0, 0, 0, 0, 0, 0, 0]);
    let count = 8 + (number % 56) as usize;
    for place in 0..count {
        let at = 16 + 8 * place;
        let turned = number.rotate_left(place as u32);
        BigEndian::write_u64(&mut octets[at..at + 8], turned);
        octets[at] = [1, 2, 5, 14, 25, 31, 253, 1][(turned % 8) as usize];
        octets[at + 1] = 1;
    }
    if number % 8 == 0 {
        octets[16 + 8 * (count - 1) + 1] = 0;
    }
    let packet = icmpv6::Packet::new_unchecked(&octets[..16 + 8 * count]);
    match ndisc::Repr::parse(&packet) {
        Ok(message) => add_ndisc(&message, digest),
        Err(_) => digest.add(1),
    }
}

/// Reads a hop-by-hop header of padding.
pub fn read_header(number: u64, octets: &mut [u8; PACKET_LEN], digest: &mut Digest) {
    octets[..254].fill(0);
    for place in 0..8 {
        let at = 2 * place + (number % 128) as usize;
        octets[at] = 1;
        octets[at + 1] = ((number >> (8 * place)) % 24) as u8;
    }
    let len = 6 + 8 * (number % 31) as usize;
    for option in Ipv6OptionsIterator::new(&octets[..len]) {
        match option {
            Ok(option) => add_option(&option, digest),
            Err(_) => digest.add(1),
        }
    }
    match ipv6hbh::Repr::parse(&ipv6hbh::Header::new_unchecked(&octets[..len])) {
        Ok(header) => add_hop_by_hop(&header, digest),
        Err(_) => digest.add(1),
    }
}
