// Made from crates/tests_icmp/src/icmp6/icmpv6/refusals.rt by rust/erase.
use super::{ECHO, TOO_BIG, all, behind, destination, source};
use crate::testing::{prints, same, same_of};
use control_wire::Checksum;
use control_wire::icmpv6::{Packet, Refusal, Repr};
use control_wire::ndisc;

// Checks why these octets are refused, where their checksum is verified or not.
fn check_refusal(octets: &[u8], checksum: Checksum, wanted: Option<Refusal>) {
    let packet = Packet::new_unchecked(octets);
    let refusal = Repr::refusal(&source(), &destination(), &packet, &all(checksum));
    same_of(octets, refusal, wanted);
}

// Checks what is read in a packet whose checksum is verified, or why it is refused.
fn check_read(packet: &Packet<&[u8]>, wanted: &Result<Repr<'_>, Refusal>) {
    let read = Repr::parse_or_refusal(&source(), &destination(), packet, &all(Checksum::Both));
    same(&read, wanted);
}

#[test]
fn the_first_check_that_fails_is_told() {
    check_refusal(&ECHO, Checksum::Both, None);
    check_refusal(&ECHO[..7], Checksum::Both, Some(Refusal::Short));
    check_refusal(&ECHO[..11], Checksum::Both, Some(Refusal::Checksum));
    check_refusal(&ECHO[..11], Checksum::None, None);
    let rpl = [0x9b, 1, 0, 0, 0, 0, 0, 0];
    check_refusal(&rpl, Checksum::Both, Some(Refusal::UnknownType(0x9b)));
    let query = [0x82, 0, 0, 0, 0, 0, 0, 0];
    check_refusal(&query, Checksum::Both, Some(Refusal::Length));
    let report = [0x8f, 1, 0, 0, 0, 0, 0, 0];
    check_refusal(&report, Checksum::None, Some(Refusal::Code(1)));
    check_refusal(&report, Checksum::Both, Some(Refusal::Checksum));
}

#[test]
fn messages_are_read_or_told_why_they_are_refused() {
    let whole = Packet::new_unchecked(&ECHO[..]);
    let message = Repr::EchoRequest {
        ident: 0x1234,
        seq_no: 0xabcd,
        data: &[0xaa, 0x00, 0x00, 0xff],
    };
    check_read(&whole, &Ok(message));
    check_read(&Packet::new_unchecked(&ECHO[..11]), &Err(Refusal::Checksum));
    // The messages of version 1 of multicast listener discovery but for its queries (RFC 2710 section 3.1).
    for number in [131, 132] {
        let octets = [number, 0, 0, 0, 0, 0, 0, 0];
        let packet = Packet::new_unchecked(&octets[..]);
        check_read(&packet, &Err(Refusal::UnknownType(number)));
    }
}

#[test]
fn refused_errors_are_told() {
    check_refusal(&TOO_BIG, Checksum::Both, None);
    check_refusal(&TOO_BIG[..47], Checksum::None, Some(Refusal::Quote));
    let other = behind(&[0x02, 0x05, 0, 0, 0, 0, 0x05, 0xdc]);
    check_refusal(&other, Checksum::None, Some(Refusal::Code(5)));
    let cut = other.get(..47).unwrap_or(&[]);
    check_refusal(cut, Checksum::None, Some(Refusal::Quote));
    check_refusal(cut, Checksum::Both, Some(Refusal::Checksum));
}

#[test]
fn refused_options_of_neighbor_discovery_are_told() {
    let solicit = [0x85, 0, 0, 0, 0, 0, 0, 0, 0x01];
    let cut = ndisc::Refusal::OptionCut { kind: 1, place: 8 };
    check_refusal(&solicit, Checksum::None, Some(Refusal::Ndisc(cut)));
    check_refusal(&solicit[..8], Checksum::None, None);
}

#[test]
fn texts_of_refusals() {
    prints(&Refusal::Short, "fewer than 8 bytes");
    prints(&Refusal::UnknownType(155), "type 155 is not read");
    prints(&Refusal::Length, "fewer bytes than the header of its type");
    prints(&Refusal::Checksum, "the checksum does not hold");
}

#[test]
fn texts_of_refused_contents() {
    prints(&Refusal::Quote, "an error that quotes fewer than 40 bytes");
    prints(&Refusal::Code(1), "code 1 is not read");
    let cut = ndisc::Refusal::OptionCut { kind: 1, place: 8 };
    prints(
        &Refusal::Ndisc(cut),
        "the option of type 1 at byte 8 is cut",
    );
}
