// Made from crates/tests_icmp/src/icmp6/ndisc/options.rt by rust/erase.
use super::{REDIRECT, THREE_MTUS, check_read, check_refused, check_written, here, read, there};
use crate::testing::{holds_of, same, same_of};
use control_wire::RawHardwareAddress;
use control_wire::icmpv6::Packet;
use control_wire::ndisc::Repr;
use control_wire::ndiscoption;

// The MTU that a router advertisement with these options tells; nothing where it is refused.
fn mtu_of(bytes: &[u8]) -> Option<Option<u32>> {
    let Ok(repr) = read(bytes) else {
        return None;
    };
    match repr {
        Repr::RouterAdvert { mtu, .. } => Some(mtu),
        _ => None,
    }
}

// Checks the MTU that these octets tell.
fn check_mtu(octets: &[u8], wanted: Option<Option<u32>>) {
    same_of(octets, mtu_of(octets), wanted);
}

#[test]
fn of_two_options_the_last_that_can_be_read_counts() {
    check_mtu(&THREE_MTUS, Some(Some(1_280)));
    check_mtu(&THREE_MTUS[..24], Some(Some(1_500)));
    check_mtu(&THREE_MTUS[..16], Some(None));
}

// An MTU of two units, which is skipped, and one of 1,500.
const SKIPPED_FIRST: [u8; 40] = [
    0x86, 0x00, 0x00, 0x00, 0x40, 0x80, 0x03, 0x84, 0x00, 0x00, 0x03, 0x84, 0x00, 0x00, 0x03, 0x84,
    0x05, 0x02, 0, 0, 0, 0, 0, 0, 0, 0, 0, 0, 0, 0, 0, 0, 0x05, 0x01, 0x00, 0x00, 0x00, 0x00, 0x05,
    0xdc,
];

#[test]
fn an_option_behind_a_skipped_one_counts() {
    check_mtu(&SKIPPED_FIRST, Some(Some(1_500)));
    check_mtu(&SKIPPED_FIRST[..32], Some(None));
}

// A router advertisement without options, and zeros behind it.
const BARE: [u8; 64] = [
    0x86, 0x00, 0x00, 0x00, 0x40, 0x80, 0x03, 0x84, 0x00, 0x00, 0x03, 0x84, 0x00, 0x00, 0x03, 0x84,
    0, 0, 0, 0, 0, 0, 0, 0, 0, 0, 0, 0, 0, 0, 0, 0, 0, 0, 0, 0, 0, 0, 0, 0, 0, 0, 0, 0, 0, 0, 0, 0,
    0, 0, 0, 0, 0, 0, 0, 0, 0, 0, 0, 0, 0, 0, 0, 0,
];

// Checks the MTU of the advertisement with an option of this type and these units, of which only so many octets are
// there.
fn check_option(kind: u8, units: u8, len: usize, wanted: Option<Option<u32>>) {
    let mut octets = BARE;
    octets[16] = kind;
    octets[17] = units;
    let part = octets.get(..len).expect("64 octets are enough");
    check_mtu(part, wanted);
}

#[test]
fn options_of_a_message_in_turn() {
    let octets: &[u8] = &SKIPPED_FIRST;
    let mut options = Packet::new_unchecked(octets).ndisc_options();
    let refusal = ndiscoption::Refusal::Length(ndiscoption::Type::Mtu, 2);
    same(options.next(), Some(Err(refusal)));
    same(options.next(), Some(Ok(ndiscoption::Repr::Mtu(1_500))));
    same(options.next(), None);
}

#[test]
fn options_that_refuse_a_message() {
    // No units at all.
    check_option(0x05, 0, 24, None);
    // A prefix of 3 units, and a redirected packet of 5; of 4 and 6 the message is read.
    check_option(0x03, 3, 40, None);
    check_option(0x03, 4, 48, Some(None));
    check_option(0x04, 5, 56, None);
    check_option(0x04, 6, 64, Some(None));
    // More units than there are bytes.
    check_option(0x04, 6, 63, None);
}

#[test]
fn solicitations_with_odd_payloads() {
    let mut octets = [0; 16];
    octets[0] = 0x85;
    holds_of(15, read(&octets[..15]).is_err());
    octets[8..10].copy_from_slice(&[0x0e, 0x01]);
    check_read(&octets, &Repr::RouterSolicit { lladdr: None });
    // No message of neighbor discovery.
    octets[0] = 0x80;
    holds_of(0x80, read(&octets).is_err());
}

#[test]
fn a_redirected_packet_that_is_not_whole_is_left_out() {
    let mut octets = [0; 88];
    octets[..40].copy_from_slice(&REDIRECT[..40]);
    octets[40..42].copy_from_slice(&[0x04, 0x06]);
    octets[48] = 0x45;
    let repr = Repr::Redirect {
        target_addr: here(),
        dest_addr: there(),
        lladdr: None,
        redirected_hdr: None,
    };
    check_read(&octets, &repr);
    check_refused(&octets[..39]);
}

#[test]
fn link_layer_addresses_that_are_none_of_ethernet_are_padded() {
    let lladdr = Some(RawHardwareAddress::from_bytes(&[0x0a]));
    let octets = [0x85, 0, 0, 0, 0, 0, 0, 0, 0x01, 0x01, 0x0a, 0, 0, 0, 0, 0];
    check_written(&Repr::RouterSolicit { lladdr }, &octets);
    let lladdr = Some(RawHardwareAddress::from_bytes(&[1, 2, 3, 4, 5, 6, 7, 8]));
    let octets = [
        0x85, 0, 0, 0, 0, 0, 0, 0, 0x01, 0x02, 1, 2, 3, 4, 5, 6, 7, 8, 0, 0, 0, 0, 0, 0,
    ];
    check_written(&Repr::RouterSolicit { lladdr }, &octets);
}
