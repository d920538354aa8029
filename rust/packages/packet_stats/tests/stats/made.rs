// Made from crates/tests_packet_stats/src/made.rt by rust/erase.
// Messages that are made, and the page of what they say.

use crate::captured::QUERY;
use crate::testing::same_of;
use control_wire::frames::Addresses;
use control_wire::{Ipv4Address, Ipv6Address};
use message_fields::{Message, Service};
use packet_fields::Form;
use packet_stats::{Stats, show_stats};
#[allow(unused_imports)]
use rattle_std::prelude::*;

// From the host of the captures, 192.0.2.50, to their server, 192.0.2.1, and back.
pub(crate) fn to_server() -> Addresses {
    Addresses::V4(
        Ipv4Address::new(192, 0, 2, 50),
        Ipv4Address::new(192, 0, 2, 1),
    )
}

pub(crate) fn to_host() -> Addresses {
    Addresses::V4(
        Ipv4Address::new(192, 0, 2, 1),
        Ipv4Address::new(192, 0, 2, 50),
    )
}

// The same host and its router, by their link-local addresses.
pub(crate) fn host6() -> Ipv6Address {
    Ipv6Address::new(0xfe80, 0, 0, 0, 0, 0xff, 0xfe00, 7)
}

pub(crate) fn router6() -> Ipv6Address {
    Ipv6Address::new(0xfe80, 0, 0, 0, 0, 0xff, 0xfe00, 1)
}

// A datagram of UDP of a service.
pub(crate) fn udp(service: Service, addresses: Addresses, octets: &[u8]) -> Message<'_> {
    Message::Udp(service, addresses, octets)
}

// The captured query with another letter in its first label, and for records of another type.
pub(crate) fn query(letter: u8, type_: u16) -> [u8; 63] {
    let [high, low] = type_.to_be_bytes();
    let mut octets = [0; 63];
    put(&mut octets, 0, QUERY);
    octets[21] = letter;
    put(&mut octets, 36, &[high, low]);
    octets
}

// The first bytes, this many or all.
pub(crate) fn front(octets: &[u8], len: usize) -> &[u8] {
    &octets[..octets.len().min(len)]
}

// Writes bytes at a place.
pub(crate) fn put(octets: &mut [u8], place: usize, bytes: &[u8]) {
    for (i, byte) in bytes.iter().enumerate() {
        if let Some(octet) = octets.get_mut(place.saturating_add(i)) {
            *octet = *byte;
        }
    }
}

// Counts a message, whose addresses are these.
pub(crate) fn counts(
    stats: &mut Stats,
    message: &Message<'_>,
    addresses: &Addresses,
    after: Option<u64>,
) {
    let is_counted = stats.count(message, addresses, after).is_ok();
    same_of("counted", is_counted, true);
}

// The page is this text.
pub(crate) fn shows(form: Form, stats: &mut Stats, text: &str) {
    let mut output = Vec::new();
    let is_shown = show_stats(&mut output, form, stats).is_ok();
    same_of(text, is_shown, true);
    same_of(text, output.as_slice(), text.as_bytes());
}
