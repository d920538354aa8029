// Made from crates/tests_base/src/options/ndiscoption/options.rt by rust/erase.
//! The options of a message in turn.

use super::{PREFIX, REDIRECTED};
#[allow(unused_imports)]
use crate::rattle_std::prelude::*;
use crate::rattle_std::test::Fail;
use crate::testing::{holds_of, same, same_of};
use control_wire::RawHardwareAddress;
use control_wire::ndiscoption::{NdiscOption, NdiscOptions, Refusal, Repr, Type};

#[test]
fn options_in_turn() {
    // A link-layer address, a nonce (RFC 3971 section 5.3.2), an MTU of two units, one of 1,500, and a type alone.
    const OCTETS: &[u8] = &[
        0x01, 0x01, 0x52, 0x54, 0x00, 0x12, 0x34, 0x56, 0x0e, 0x01, 1, 2, 3, 4, 5, 6, 0x05, 0x02,
        0, 0, 0, 0, 0, 0, 0, 0, 0, 0, 0, 0, 0, 0, 0x05, 0x01, 0x00, 0x00, 0x00, 0x00, 0x05, 0xdc,
        0x19,
    ];
    let address = RawHardwareAddress::from_bytes(&[0x52, 0x54, 0x00, 0x12, 0x34, 0x56]);
    let nonce = Repr::Unknown {
        type_: 0x0e,
        length: 1,
        data: &[1, 2, 3, 4, 5, 6],
    };
    let mut options = NdiscOptions::new(OCTETS);
    same(options.next(), Some(Ok(Repr::SourceLinkLayerAddr(address))));
    same(options.next(), Some(Ok(nonce)));
    same(options.next(), Some(Err(Refusal::Length(Type::Mtu, 2))));
    same(options.next(), Some(Ok(Repr::Mtu(1_500))));
    same(options.next(), Some(Err(Refusal::Short)));
    same(options.next(), None);
    same(options.next(), None);
}

#[test]
fn a_copy_of_options_goes_on_from_the_same_place() -> Result<(), Fail> {
    const OCTETS: &[u8] = &[5, 1, 0, 0, 0, 0, 0x05, 0xdc, 5, 1, 0, 0, 1, 2, 3, 4];
    let mut options = NdiscOptions::new(OCTETS);
    same(options.next(), Some(Ok(Repr::Mtu(1_500))));
    let mut copy = options.try_clone()?;
    same(copy.next(), Some(Ok(Repr::Mtu(0x0102_0304))));
    same(copy.next(), None);
    same(options.next(), Some(Ok(Repr::Mtu(0x0102_0304))));
    Ok(())
}

// Ends the test unless so many options are read in the octets, and then this refusal comes or none, and the end.
fn check_options(octets: &[u8], count: usize, refusal: Option<Refusal>) {
    let mut options = NdiscOptions::new(octets);
    for _ in 0..count {
        holds_of(octets, matches!(options.next(), Some(Ok(_))));
    }
    let told = match options.next() {
        Some(Err(told)) => Some(told),
        _ => None,
    };
    same_of(octets, told, refusal);
    holds_of(octets, options.next().is_none());
    holds_of(octets, options.next().is_none());
}

#[test]
fn octets_that_end_before_an_option_does_are_refused_once() {
    check_options(&[], 0, None);
    for len in 1..8 {
        check_options(&PREFIX[..len], 0, Some(Refusal::Short));
    }
    for len in 8..PREFIX.len() {
        check_options(&PREFIX[..len], 0, Some(Refusal::Cut(32)));
    }
    check_options(&PREFIX, 1, None);
    check_options(&REDIRECTED, 1, None);
    let mut two = [0; 64];
    two[..32].copy_from_slice(&PREFIX);
    check_options(&two[..32], 1, None);
    // A type 0 that counts no units.
    check_options(&two, 1, Some(Refusal::Zero));
    two[32..].copy_from_slice(&PREFIX);
    check_options(&two, 2, None);
    // A prefix of 3 units, which the type does not have.
    two[33] = 3;
    let three = Refusal::Length(Type::PrefixInformation, 3);
    check_options(&two, 1, Some(three));
}

// Ends the test unless the one option in the octets is answered by this refusal.
fn check_unread(octets: &[u8], refusal: Refusal) {
    check_options(octets, 0, Some(refusal));
}

#[test]
fn reasons_of_whole_options_that_are_not_read() {
    // A prefix of 5 units.
    let mut longer = [0; 40];
    longer[..2].copy_from_slice(&[0x03, 0x05]);
    check_unread(&longer, Refusal::Length(Type::PrefixInformation, 5));
    // The redirected packet has room for 8 bytes of payload.
    let mut packet = REDIRECTED;
    packet[8] = 0x45;
    check_unread(&packet, Refusal::PacketVersion(4));
    packet[13] = 9;
    check_unread(&packet, Refusal::PacketCut(49));
}

#[test]
fn an_option_that_counts_no_units_is_whole_and_is_refused() {
    let octets: &[u8] = &[0x01, 0, 0, 0, 0, 0, 0, 0];
    same(NdiscOption::new_unchecked(octets).check_len(), Ok(()));
    holds_of(octets, NdiscOption::new_checked(octets).is_err());
}
