// Made from crates/tests_icmp/src/icmp6/ndisc/refusals.rt by rust/erase.
use super::{BARE_ADVERT, FULL_ROUTER_ADVERT, REDIRECT, ROUTER_ADVERT};
use crate::testing::{prints, same_of};
use control_wire::icmpv6::Packet;
use control_wire::ndisc::{Refusal, Repr};

// Checks why these octets are refused.
fn check_refusal(octets: &[u8], wanted: Option<Refusal>) {
    let refusal = Repr::refusal(&Packet::new_unchecked(octets));
    same_of(octets, refusal, wanted);
}

#[test]
fn the_first_check_that_fails_is_told() {
    check_refusal(&REDIRECT, None);
    check_refusal(&ROUTER_ADVERT[..7], Some(Refusal::Short));
    check_refusal(&ROUTER_ADVERT[..15], Some(Refusal::Length));
    check_refusal(&BARE_ADVERT[..23], Some(Refusal::Length));
    let other = [0x84, 0, 0, 0, 0, 0, 0, 0];
    check_refusal(&other, Some(Refusal::UnknownType(0x84)));
}

// Checks why a router advertisement with all options is refused where the prefix, at byte 32, counts so many units, and
// so many octets of it are there.
fn check_prefix(units: u8, len: usize, wanted: Option<Refusal>) {
    let mut octets = FULL_ROUTER_ADVERT;
    octets[33] = units;
    let part = octets.get(..len).expect("there are 64 octets");
    check_refusal(part, wanted);
}

#[test]
fn the_first_option_that_is_not_whole_is_told() {
    let cut = Some(Refusal::OptionCut { kind: 3, place: 32 });
    check_prefix(4, 64, None);
    check_prefix(4, 32, None);
    check_prefix(4, 33, cut);
    check_prefix(4, 63, cut);
    check_prefix(5, 64, cut);
    check_prefix(0, 64, Some(Refusal::OptionEmpty { kind: 3, place: 32 }));
    let short = Refusal::OptionLength {
        kind: 3,
        units: 3,
        place: 32,
    };
    check_prefix(3, 64, Some(short));
}

#[test]
fn a_redirected_packet_has_length_6_or_more() {
    let mut octets = REDIRECT;
    octets[49] = 5;
    let short = Refusal::OptionLength {
        kind: 4,
        units: 5,
        place: 48,
    };
    check_refusal(&octets, Some(short));
}

#[test]
fn texts_of_refusals() {
    prints(&Refusal::Short, "fewer than 8 bytes");
    prints(&Refusal::UnknownType(132), "type 132 is not read");
    prints(&Refusal::Length, "fewer bytes than the header of its type");
}

#[test]
fn texts_of_refused_options() {
    prints(
        &Refusal::OptionCut { kind: 3, place: 32 },
        "the option of type 3 at byte 32 is cut",
    );
    prints(
        &Refusal::OptionEmpty { kind: 3, place: 32 },
        "the option of type 3 at byte 32 has length 0",
    );
    let short = Refusal::OptionLength {
        kind: 4,
        units: 5,
        place: 48,
    };
    prints(
        &short,
        "the option of type 4 at byte 48 has length 5, too short for its type",
    );
}
