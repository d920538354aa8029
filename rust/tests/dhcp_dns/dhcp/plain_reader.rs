// Made from crates/tests_dhcp_dns/src/dhcp/plain_reader.rt by rust/erase.
// A second reader of options, by the rules of RFC 2132 section 2 alone: a byte 0 is padding, and a byte 255 ends them;
// any other kind is followed by a length and as many bytes of data, and an option that is cut off ends them too. The
// tests compare the crate with it.

#[allow(unused_imports)]
use crate::rattle_std::prelude::*;
use crate::testing::{holds_of, same_of};
use control_wire::dhcpv4::{DhcpOption, OptionsIter, Packet, Repr};

// The bytes before the options.
const HEADER_LEN: usize = 240;

// What the octets begin with, an option or else padding, and the octets after it.
fn first_option(octets: &[u8]) -> Option<(Option<DhcpOption<'_>>, &[u8])> {
    match octets {
        [] | [255, ..] => None,
        [0, rest @ ..] => Some((None, rest)),
        [kind, rest @ ..] => option_of(*kind, rest),
    }
}

// The option of this kind whose length is at the front of the octets, and the octets after it.
fn option_of(kind: u8, octets: &[u8]) -> Option<(Option<DhcpOption<'_>>, &[u8])> {
    let [length, rest @ ..] = octets else {
        return None;
    };
    let Some((data, rest)) = rest.split_at_checked(*length as usize) else {
        return None;
    };
    Some((Some(DhcpOption { kind, data }), rest))
}

// The options up to the end.
fn options_in<'a>(octets: &'a [u8]) -> Vec<DhcpOption<'a>> {
    let mut options = Vec::new();
    let mut rest = octets;
    for _ in 0..octets.len() {
        let Some((option, after)) = first_option(rest) else {
            break;
        };
        if let Some(option) = option {
            holds_of(octets, options.push(option).is_ok());
        }
        rest = after;
    }
    options
}

// What a byte of a packet is set to, one byte at a time.
const DAMAGE: &[u8] = &[0x00, 0x40, 0x7f, 0x80, 0xc0, 0xff];

// Compares the crate with the plain reader over this packet, over each shorter part of it from its start on, and over
// the packet in which one byte is damaged.
pub(crate) fn compare_damaged(packet: &mut [u8]) {
    for len in 0..=packet.len() {
        compare(&packet[..len]);
    }
    for at in 0..packet.len() {
        compare_damaged_at(packet, at);
    }
}

// `compare` over the packet in which the byte at this place is damaged.
fn compare_damaged_at(packet: &mut [u8], at: usize) {
    let whole = *packet.get(at).unwrap_or(&0);
    for &value in DAMAGE {
        set(packet, at, value);
        compare(packet);
    }
    set(packet, at, whole);
}

// Writes a byte of a packet.
pub(crate) fn set(packet: &mut [u8], at: usize, value: u8) {
    if let Some(byte) = packet.get_mut(at) {
        *byte = value;
    }
}

// Compares the iterator with the plain reader, and where reasons are told. What the parser reads `wiredump` prints,
// which `rust/compare` compares with a plain printer on these options.
fn compare(octets: &[u8]) {
    let behind = octets.get(HEADER_LEN..).unwrap_or(&[]);
    let plain = options_in(behind);
    compare_view(octets, plain.as_slice());
    compare_refusal(octets);
}

// Compares whether a reason is told with whether the parser refuses.
fn compare_refusal(octets: &[u8]) {
    let packet = Packet::new_unchecked(octets);
    let is_read = Repr::parse(&packet).is_ok();
    same_of(octets, Repr::refusal(&packet).is_none(), is_read);
}

// Compares the iterator of a view with these options of the plain reader.
pub(crate) fn compare_view(octets: &[u8], plain: &[DhcpOption<'_>]) {
    match Packet::new_checked(octets) {
        Ok(packet) => compare_options(packet.options(), plain),
        Err(_) => holds_of(octets, octets.len() < HEADER_LEN),
    }
}

// Compares the iterator with the options of the plain reader.
fn compare_options(options: OptionsIter<'_>, plain: &[DhcpOption<'_>]) {
    let mut options = options;
    for option in plain {
        same_of(plain, options.next(), Some(*option));
    }
    holds_of(plain, options.next().is_none());
    holds_of(plain, options.next().is_none());
}
