// Made from crates/tests_base/src/options/ndiscoption/refusals.rt by rust/erase.
use super::{PREFIX, REDIRECTED};
use crate::testing::{prints, same_of, takes_writes};
use control_wire::ndiscoption::{NdiscOption, Refusal, Repr, Type};

// Compares the reason that is told of octets.
fn check_told(octets: &[u8], refusal: Refusal) {
    let told = Repr::refusal(&NdiscOption::new_unchecked(octets));
    same_of(octets, told, Some(refusal));
}

#[test]
fn reasons_of_refused_options() {
    const ROWS: &[(&[u8], Refusal)] = &[
        (&[], Refusal::Short),
        (&[0x01, 0x00, 0, 0, 0, 0, 0], Refusal::Short),
        (&[0x01, 0x00, 0, 0, 0, 0, 0, 0], Refusal::Zero),
        // A length of 0 is told before what the type allows, and so is an option that is cut.
        (&[0x03, 0x00, 0, 0, 0, 0, 0, 0], Refusal::Zero),
        (&[0x05, 0x02, 0, 0, 0, 0, 0, 0], Refusal::Cut(16)),
        (&[0xfe, 0xff, 0, 0, 0, 0, 0, 0], Refusal::Cut(2_040)),
        (
            &[0x03, 0x01, 0, 0, 0, 0, 0, 0],
            Refusal::Length(Type::PrefixInformation, 1),
        ),
        (
            &[0x04, 0x01, 0, 0, 0, 0, 0, 0],
            Refusal::Length(Type::RedirectedHeader, 1),
        ),
        (
            &[0x05, 0x02, 0, 0, 0, 0, 0, 0, 0, 0, 0, 0, 0, 0, 0, 0],
            Refusal::Length(Type::Mtu, 2),
        ),
    ];
    for &(octets, refusal) in ROWS {
        check_told(octets, refusal);
    }
}

#[test]
fn reasons_of_prefixes_and_redirected_headers() {
    // A prefix of 5 units, and a redirected header of 5.
    let mut longer = [0; 40];
    longer[..2].copy_from_slice(&[0x03, 0x05]);
    check_told(&longer, Refusal::Length(Type::PrefixInformation, 5));
    longer[0] = 0x04;
    check_told(&longer, Refusal::Length(Type::RedirectedHeader, 5));
    check_told(&PREFIX[..31], Refusal::Cut(32));
    // The redirected packet has room for 8 bytes of payload.
    let mut packet = REDIRECTED;
    packet[8] = 0x45;
    check_told(&packet, Refusal::PacketVersion(4));
    packet[13] = 9;
    check_told(&packet, Refusal::PacketCut(49));
}

#[test]
fn what_reasons_print() {
    const ROWS: &[(Refusal, &str)] = &[
        (Refusal::Short, "fewer than 8 bytes"),
        (Refusal::Zero, "a length of 0"),
        (
            Refusal::Cut(16),
            "fewer than the 16 bytes that the option counts",
        ),
        (
            Refusal::Length(Type::PrefixInformation, 5),
            "a length of 5 is not allowed for prefix information",
        ),
        (
            Refusal::Length(Type::RedirectedHeader, 5),
            "a length of 5 is not allowed for redirected header",
        ),
        (
            Refusal::Length(Type::Mtu, 2),
            "a length of 2 is not allowed for mtu",
        ),
        (
            Refusal::PacketCut(49),
            "fewer than the 49 bytes that the redirected packet counts",
        ),
        (
            Refusal::PacketVersion(4),
            "version 4 of the redirected packet",
        ),
    ];
    for (refusal, text) in ROWS {
        prints(refusal, text);
    }
    takes_writes(&Refusal::Length(Type::Mtu, 2), 4);
}
