// Made from crates/tests_icmp/src/icmp6/ndisc.rt by rust/erase.

use crate::icmp6::plain_reader::compare_damaged;
use crate::testing::{differ, holds_of, reads, same, same_of};
use control_wire::icmpv6::Packet;
use control_wire::ndisc::{NeighborFlags, Repr, RouterFlags};
use control_wire::ndiscoption::{PrefixInfoFlags, PrefixInformation, RedirectedHeader};
use control_wire::{
    ChecksumCapabilities, Duration, IpProtocol, Ipv6Address, Ipv6Repr, RawHardwareAddress, Result,
};
use control_wire::{icmpv6, mld};

mod fields;
mod options;
mod refusals;
mod texts;

fn here() -> Ipv6Address {
    Ipv6Address::new(0xfe80, 0, 0, 0, 0, 0, 0, 1)
}

fn there() -> Ipv6Address {
    Ipv6Address::new(0xfe80, 0, 0, 0, 0, 0, 0, 2)
}

// The octets of a buffer before it is written into.
const FILLS: &[u8] = &[0x00, 0xff, 0x2a];

fn ethernet() -> RawHardwareAddress {
    RawHardwareAddress::from_bytes(&[0x52, 0x54, 0x00, 0x12, 0x34, 0x56])
}

// What reading these bytes gives.
fn read(bytes: &[u8]) -> Result<Repr<'_>> {
    Repr::parse(&Packet::new_unchecked(bytes))
}

// Checks that these bytes are read as this message.
fn check_read(bytes: &[u8], repr: &Repr<'_>) {
    reads(&read(bytes), repr);
}

// Checks that these bytes are read as another message.
fn check_other(bytes: &[u8], repr: &Repr<'_>) {
    let found = read(bytes);
    holds_of(bytes, found.is_ok());
    differ("another message", &found, &Ok(*repr));
}

// Checks that these bytes are refused.
fn check_refused(bytes: &[u8]) {
    holds_of(bytes, read(bytes).is_err());
}

// Checks that the first bytes of a message are refused where they are so many or more, and fewer than `end`.
fn check_cut(message: &[u8], start: usize, end: usize) {
    for len in start..end {
        check_refused(&message[..len]);
    }
}

// Writes a message over octets that are all the same, and checks that it is those which are wanted.
fn check_written<const N: usize>(repr: &Repr<'_>, wanted: &[u8; N]) {
    same(repr.buffer_len(), N);
    for &fill in FILLS {
        let mut octets = [fill; N];
        repr.emit_into(&mut octets);
        same_of(fill, &octets, wanted);
    }
}

// Checks that the message is written as these octets, and read from them.
fn check_both<const N: usize>(repr: &Repr<'_>, octets: &[u8; N]) {
    check_written(repr, octets);
    check_read(octets, repr);
}

// Hop limit 64, flag M, a lifetime of 900 s, times of 16,778,216 and 4,278,125,344 ms, and a link-layer address.
const ROUTER_ADVERT: [u8; 24] = [
    0x86, 0x00, 0x00, 0x00, 0x40, 0x80, 0x03, 0x84, 0x01, 0x00, 0x03, 0xe8, 0xfe, 0xff, 0x03, 0x20,
    0x01, 0x01, 0x52, 0x54, 0x00, 0x12, 0x34, 0x56,
];

fn router_advert() -> Repr<'static> {
    router_advert_of(Duration::from_secs(900))
}

// The router advertisement with this lifetime.
fn router_advert_of(router_lifetime: Duration) -> Repr<'static> {
    Repr::RouterAdvert {
        hop_limit: 64,
        flags: RouterFlags::MANAGED,
        router_lifetime,
        reachable_time: Duration::from_millis(16_778_216),
        retrans_time: Duration::from_millis(4_278_125_344),
        lladdr: Some(RawHardwareAddress::from_bytes(&[
            0x52, 0x54, 0x00, 0x12, 0x34, 0x56,
        ])),
        mtu: None,
        prefix_info: None,
    }
}

#[test]
fn router_advertisements_are_written_and_read() {
    let repr = router_advert();
    check_both(&repr, &ROUTER_ADVERT);
    check_cut(&ROUTER_ADVERT, 0, 15);
    holds_of(15, read(&ROUTER_ADVERT[..15]).is_err());
    // All flag bits are set; those without a name are not read.
    let mut octets = ROUTER_ADVERT;
    octets[5] = 0xbf;
    check_read(&octets, &repr);
}

#[test]
fn router_lifetimes_are_cut_to_whole_seconds() {
    let repr = router_advert_of(Duration::from_micros(900_000_001));
    check_written(&repr, &ROUTER_ADVERT);
    holds_of("a message", read(&ROUTER_ADVERT).is_ok());
    check_other(&ROUTER_ADVERT, &repr);
}

#[test]
fn router_lifetimes_that_differ_by_a_second_have_other_texts() {
    let mut text = ROUTER_ADVERT;
    text[7] = 0x85;
    let repr = router_advert_of(Duration::from_secs(901));
    check_both(&repr, &text);
    holds_of("a message", read(&ROUTER_ADVERT).is_ok());
    check_other(&ROUTER_ADVERT, &repr);
}

// What a host asks of the routers on its link, with its own address there.
fn router_solicit() -> Repr<'static> {
    Repr::RouterSolicit {
        lladdr: Some(RawHardwareAddress::from_bytes(&[
            0x52, 0x54, 0x00, 0x12, 0x34, 0x56,
        ])),
    }
}

#[test]
fn a_router_solicitation_is_written_and_read() {
    let repr = router_solicit();
    check_written(&repr, &ROUTER_SOLICIT);
    holds_of("a message", read(&ROUTER_SOLICIT).is_ok());
    check_read(&ROUTER_SOLICIT, &repr);
    let same_repr = Repr::RouterSolicit {
        lladdr: Some(ethernet()),
    };
    check_read(&ROUTER_SOLICIT, &same_repr);
}

// Whether these bytes are read as this message from fe80::1 to fe80::2.
fn reads_icmpv6(bytes: &[u8], repr: &icmpv6::Repr<'_>, caps: &ChecksumCapabilities) -> bool {
    let packet = Packet::new_unchecked(bytes);
    let Ok(found) = icmpv6::Repr::parse(&here(), &there(), &packet, caps) else {
        return false;
    };
    found == *repr
}

// `ROUTER_ADVERT` with the checksum that it has from fe80::1 to fe80::2.
const SEALED_ADVERT: [u8; 24] = [
    0x86, 0x00, 0xa9, 0xde, 0x40, 0x80, 0x03, 0x84, 0x01, 0x00, 0x03, 0xe8, 0xfe, 0xff, 0x03, 0x20,
    0x01, 0x01, 0x52, 0x54, 0x00, 0x12, 0x34, 0x56,
];

// Writes the advertisement of icmpv6 over octets that are all this one, and checks that it has its checksum.
fn check_sealed(fill: u8, caps: &ChecksumCapabilities) {
    let repr = icmpv6::Repr::Ndisc(router_advert());
    same([repr.buffer_len(), repr.packet_len()], [24, 24]);
    let mut octets = [fill; 24];
    repr.emit_into(&here(), &there(), &mut octets, caps);
    same_of(fill, octets, SEALED_ADVERT);
    holds_of(fill, reads_icmpv6(&octets, &repr, caps));
}

// Whether these bytes are read as a message of listener discovery.
fn is_of_listeners(bytes: &[u8]) -> bool {
    mld::Repr::parse(&Packet::new_unchecked(bytes)).is_ok()
}

#[test]
fn router_advertisements_of_icmpv6_carry_a_checksum() {
    holds_of("of neighbors", !is_of_listeners(&ROUTER_ADVERT));
    let caps = ChecksumCapabilities::default();
    for &fill in FILLS {
        check_sealed(fill, &caps);
    }
}

// Checks that the advertisement of icmpv6 in which this byte is another one is not read as it was.
fn check_changed(at: usize, byte: u8, caps: &ChecksumCapabilities) {
    let mut text = SEALED_ADVERT;
    text[at] = byte;
    let repr = icmpv6::Repr::Ndisc(router_advert());
    holds_of(at, !reads_icmpv6(&text, &repr, caps));
}

#[test]
fn a_turned_bit_and_another_code_of_an_advertisement_are_refused() {
    check_changed(4, 0x41, &ChecksumCapabilities::default());
    check_changed(1, 1, &ChecksumCapabilities::ignored());
}

// The advertisement with an MTU of 1,500 and the prefix fe80::1/64, valid for 900 seconds and preferred for 1,000.
const FULL_ROUTER_ADVERT: [u8; 64] = [
    0x86, 0x00, 0x00, 0x00, 0x40, 0x80, 0x03, 0x84, 0x01, 0x00, 0x03, 0xe8, 0xfe, 0xff, 0x03, 0x20,
    0x01, 0x01, 0x52, 0x54, 0x00, 0x12, 0x34, 0x56, 0x05, 0x01, 0x00, 0x00, 0x00, 0x00, 0x05, 0xdc,
    0x03, 0x04, 0x40, 0xc0, 0x00, 0x00, 0x03, 0x84, 0x00, 0x00, 0x03, 0xe8, 0x00, 0x00, 0x00, 0x00,
    0xfe, 0x80, 0, 0, 0, 0, 0, 0, 0, 0, 0, 0, 0, 0, 0, 0x01,
];

fn full_router_advert() -> Repr<'static> {
    Repr::RouterAdvert {
        hop_limit: 64,
        flags: RouterFlags::MANAGED,
        router_lifetime: Duration::from_secs(900),
        reachable_time: Duration::from_millis(16_778_216),
        retrans_time: Duration::from_millis(4_278_125_344),
        lladdr: Some(RawHardwareAddress::from_bytes(&[
            0x52, 0x54, 0x00, 0x12, 0x34, 0x56,
        ])),
        mtu: Some(1_500),
        prefix_info: Some(prefix()),
    }
}

fn prefix() -> PrefixInformation {
    PrefixInformation {
        prefix_len: 64,
        flags: PrefixInfoFlags::ON_LINK | PrefixInfoFlags::ADDRCONF,
        valid_lifetime: Duration::from_secs(900),
        preferred_lifetime: Duration::from_secs(1_000),
        prefix: here(),
    }
}

#[test]
fn router_advertisements_with_all_options() {
    let repr = full_router_advert();
    check_both(&repr, &FULL_ROUTER_ADVERT);
    check_cut(&FULL_ROUTER_ADVERT, 0, 16);
    check_cut(&FULL_ROUTER_ADVERT, 33, 63);
    holds_of(63, read(&FULL_ROUTER_ADVERT[..63]).is_err());
}

// A host asks for fe80::1, and tells no address.
const BARE_SOLICIT: [u8; 24] = [
    0x87, 0x00, 0x00, 0x00, 0, 0, 0, 0, 0xfe, 0x80, 0, 0, 0, 0, 0, 0, 0, 0, 0, 0, 0, 0, 0, 0x01,
];

#[test]
fn solicitations_are_written_and_read() {
    let neighbor = Repr::NeighborSolicit {
        target_addr: here(),
        lladdr: None,
    };
    check_both(&neighbor, &BARE_SOLICIT);
    holds_of(23, read(&BARE_SOLICIT[..23]).is_err());
}

#[test]
fn a_solicitation_in_a_longer_buffer_leaves_the_rest() {
    let repr = Repr::RouterSolicit { lladdr: None };
    let mut octets = [0xa5; 10];
    let mut packet = Packet::new_unchecked(octets.as_mut_slice());
    repr.emit(&mut packet);
    same(
        octets,
        [0x85, 0x00, 0x00, 0x00, 0x00, 0x00, 0x00, 0x00, 0xa5, 0xa5],
    );
    holds_of(10, read(&octets).is_err());
}

// What fe80::1 answers where it tells no address.
const BARE_ADVERT: [u8; 24] = [
    0x88, 0x00, 0x00, 0x00, 0x60, 0x00, 0x00, 0x00, 0xfe, 0x80, 0, 0, 0, 0, 0, 0, 0, 0, 0, 0, 0, 0,
    0, 0x01,
];

// The message with the link-layer addresses of a target and of a source.
const ADVERT_OF_BOTH: [u8; 40] = [
    0x88, 0x00, 0x00, 0x00, 0x60, 0x00, 0x00, 0x00, 0xfe, 0x80, 0, 0, 0, 0, 0, 0, 0, 0, 0, 0, 0, 0,
    0, 0x01, 0x02, 0x01, 0x52, 0x54, 0x00, 0x12, 0x34, 0x56, 0x01, 0x01, 1, 2, 3, 4, 5, 6,
];

#[test]
fn advertisements_of_neighbors_are_written_and_read() {
    let repr = Repr::NeighborAdvert {
        flags: NeighborFlags::SOLICITED | NeighborFlags::OVERRIDE,
        target_addr: here(),
        lladdr: None,
    };
    check_both(&repr, &BARE_ADVERT);
    holds_of(23, read(&BARE_ADVERT[..23]).is_err());
    // The link-layer address is that of the target, not that of a source.
    let told = Repr::NeighborAdvert {
        flags: NeighborFlags::SOLICITED | NeighborFlags::OVERRIDE,
        target_addr: here(),
        lladdr: Some(ethernet()),
    };
    check_read(&ADVERT_OF_BOTH, &told);
}

// To fe80::1 for fe80::2, with a link-layer address and 4 bytes of UDP from fe80::1 to fe80::2.
const REDIRECT: [u8; 104] = [
    0x89, 0x00, 0x00, 0x00, 0x00, 0x00, 0x00, 0x00, 0xfe, 0x80, 0, 0, 0, 0, 0, 0, 0, 0, 0, 0, 0, 0,
    0, 0x01, 0xfe, 0x80, 0, 0, 0, 0, 0, 0, 0, 0, 0, 0, 0, 0, 0, 0x02, 0x02, 0x01, 0x52, 0x54, 0x00,
    0x12, 0x34, 0x56, 0x04, 0x07, 0, 0, 0, 0, 0, 0, 0x60, 0x00, 0x00, 0x00, 0x00, 0x04, 0x11, 0x40,
    0xfe, 0x80, 0, 0, 0, 0, 0, 0, 0, 0, 0, 0, 0, 0, 0, 0x01, 0xfe, 0x80, 0, 0, 0, 0, 0, 0, 0, 0, 0,
    0, 0, 0, 0, 0x02, 0xaa, 0xbb, 0xcc, 0xdd, 0x00, 0x00, 0x00, 0x00,
];

fn redirect() -> Repr<'static> {
    let header = Ipv6Repr {
        src_addr: here(),
        dst_addr: there(),
        next_header: IpProtocol::Udp,
        payload_len: 4,
        hop_limit: 64,
    };
    Repr::Redirect {
        target_addr: here(),
        dest_addr: there(),
        lladdr: Some(RawHardwareAddress::from_bytes(&[
            0x52, 0x54, 0x00, 0x12, 0x34, 0x56,
        ])),
        redirected_hdr: Some(RedirectedHeader {
            header,
            data: &[0xaa, 0xbb, 0xcc, 0xdd],
        }),
    }
}

#[test]
fn redirects_are_written_and_read() {
    check_both(&redirect(), &REDIRECT);
    holds_of(39, read(&REDIRECT[..39]).is_err());
}

// A host asks the routers, and tells its link-layer address.
const ROUTER_SOLICIT: [u8; 16] = [
    0x85, 0x00, 0x00, 0x00, 0, 0, 0, 0, 0x01, 0x01, 0x52, 0x54, 0x00, 0x12, 0x34, 0x56,
];

// A host asks for fe80::1, and tells an address of 8 bytes; then comes an option of an unknown type.
const NEIGHBOR_SOLICIT: [u8; 48] = [
    0x87, 0x00, 0x00, 0x00, 0, 0, 0, 0, 0xfe, 0x80, 0, 0, 0, 0, 0, 0, 0, 0, 0, 0, 0, 0, 0, 0x01,
    0x01, 0x02, 1, 2, 3, 4, 5, 6, 7, 8, 0, 0, 0, 0, 0, 0, 0x0e, 0x01, 1, 2, 3, 4, 5, 6,
];

// fe80::1 tells its link-layer address twice, with that of a source between.
const NEIGHBOR_ADVERT: [u8; 48] = [
    0x88, 0x00, 0x00, 0x00, 0x60, 0, 0, 0, 0xfe, 0x80, 0, 0, 0, 0, 0, 0, 0, 0, 0, 0, 0, 0, 0, 0x01,
    0x02, 0x01, 0x52, 0x54, 0x00, 0x12, 0x34, 0x56, 0x01, 0x01, 1, 2, 3, 4, 5, 6, 0x02, 0x01, 6, 5,
    4, 3, 2, 1,
];

// MTUs of 1,500 and 1,280, and one of two units, which is skipped.
const THREE_MTUS: [u8; 48] = [
    0x86, 0x00, 0x00, 0x00, 0x40, 0x80, 0x03, 0x84, 0x00, 0x00, 0x03, 0x84, 0x00, 0x00, 0x03, 0x84,
    0x05, 0x01, 0x00, 0x00, 0x00, 0x00, 0x05, 0xdc, 0x05, 0x01, 0x00, 0x00, 0x00, 0x00, 0x05, 0x00,
    0x05, 0x02, 0, 0, 0, 0, 0, 0, 0, 0, 0, 0, 0, 0, 0, 0,
];

#[test]
fn damaged_messages() {
    compare_damaged(&ROUTER_SOLICIT);
    compare_damaged(&ROUTER_ADVERT);
    compare_damaged(&FULL_ROUTER_ADVERT);
    compare_damaged(&THREE_MTUS);
    compare_damaged(&NEIGHBOR_SOLICIT);
    compare_damaged(&NEIGHBOR_ADVERT);
    compare_damaged(&REDIRECT);
}
