// Made from crates/tests_icmp/src/icmp6/plain_reader.rt by rust/erase.
// A second reader of messages, by the layouts of RFC 4443, RFC 3810 and RFC 4861, and by smoltcp's rules of what is
// refused. The tests compare the crate with it.

use crate::testing::same_of;
use control_wire::icmpv6::Packet;
use control_wire::{ChecksumCapabilities, IpProtocol, Ipv6Address, Ipv6Repr, Result};
use control_wire::{icmpv6, mld, ndisc};
use std::fmt::Debug;

mod control;
mod listener;
mod neighbor;

// The bytes of the header of a message of this type.
fn header_len(kind: u8) -> Option<usize> {
    match kind {
        // RFC 4443 sections 3 and 4.
        1..=4 | 128 | 129 => Some(8),
        // RFC 3810 sections 5.1 and 5.2.
        130 => Some(28),
        143 => Some(8),
        // RFC 4861 sections 4.1 to 4.5.
        133 => Some(8),
        134 => Some(16),
        135 | 136 => Some(24),
        137 => Some(40),
        _ => None,
    }
}

// The header of a message, by its type, and what follows it.
fn split_header(octets: &[u8]) -> Option<(&[u8], &[u8])> {
    let len = header_len(*octets.first()?)?;
    octets.split_at_checked(len)
}

// A header of any version (RFC 8200 section 3), and all that follows it.
fn split_ip_header(octets: &[u8]) -> Option<(Ipv6Repr, &[u8])> {
    let [_, _, _, _, high, low, next_header, hop_limit, rest @ ..] = octets else {
        return None;
    };
    let (src_addr, rest) = rest.split_first_chunk::<16>()?;
    let (dst_addr, data) = rest.split_first_chunk::<16>()?;
    let header = Ipv6Repr {
        src_addr: Ipv6Address::from_octets(*src_addr),
        dst_addr: Ipv6Address::from_octets(*dst_addr),
        next_header: IpProtocol::from(*next_header),
        payload_len: u16::from_be_bytes([*high, *low]) as usize,
        hop_limit: *hop_limit,
    };
    Some((header, data))
}

// What a byte of a message is set to, one byte at a time.
const DAMAGE: &[u8] = &[0x00, 0x40, 0x7f, 0x80, 0xc0, 0xff];

// Compares the crate with the plain reader over this message, over each shorter part of it from its start on, and over
// each copy of it in which one byte is damaged. A reason is told just where a message is refused.
pub(crate) fn compare_damaged<const N: usize>(message: &[u8; N]) {
    for len in 0..=N {
        compare(&message[..len]);
    }
    for at in 0..N {
        compare_changed(message, at);
    }
}

// `compare` over copies in which the byte at this place is another one.
fn compare_changed<const N: usize>(message: &[u8; N], at: usize) {
    for &value in DAMAGE {
        let mut damaged = *message;
        damaged[at] = value;
        compare(&damaged);
    }
}

// Compares the check of a header and the three readers.
fn compare(octets: &[u8]) {
    compare_header(octets);
    compare_neighbor(octets);
    compare_listener(octets);
    compare_control(octets);
}

fn compare_header(octets: &[u8]) {
    let is_whole = Packet::new_checked(octets).is_ok();
    same_of(octets, is_whole, split_header(octets).is_some());
}

fn compare_neighbor(octets: &[u8]) {
    let packet = Packet::new_unchecked(octets);
    let read = ndisc::Repr::parse(&packet);
    agree(octets, &read, &neighbor::message(octets));
    let refusal = ndisc::Repr::refusal(&packet);
    same_of(octets, refusal.is_some(), read.is_err());
}

fn compare_listener(octets: &[u8]) {
    let packet = Packet::new_unchecked(octets);
    let read = mld::Repr::parse(&packet);
    agree(octets, &read, &listener::message(octets));
    let refusal = mld::Repr::refusal(&packet);
    same_of(octets, refusal.is_some(), read.is_err());
}

// The checksum is not looked at.
fn compare_control(octets: &[u8]) {
    let nobody = Ipv6Address::UNSPECIFIED;
    let caps = ChecksumCapabilities::ignored();
    let packet = Packet::new_unchecked(octets);
    let read = icmpv6::Repr::parse(&nobody, &nobody, &packet, &caps);
    agree(octets, &read, &control::message(octets));
    let refusal = icmpv6::Repr::refusal(&nobody, &nobody, &packet, &caps);
    same_of(octets, refusal.is_some(), read.is_err());
}

// Ends the test where the two readers differ. Over any type, for the prover looks into each value of a message.
fn agree<T: PartialEq + Debug>(octets: &[u8], read: &Result<T>, plain: &Option<T>) {
    same_of(octets, read.as_ref().ok(), plain.as_ref());
}
