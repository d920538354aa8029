// Made from crates/tests_base/src/options/ndiscoption.rt by rust/erase.

use crate::testing::{FILLERS, holds_of, print_differently, prints, same, same_of};
use control_wire::ndiscoption::{
    NdiscOption, PrefixInfoFlags, PrefixInformation, RedirectedHeader, Repr,
};
use control_wire::{Duration, Error, IpProtocol, Ipv6Address, Ipv6Repr, RawHardwareAddress};

mod lengths;
mod options;
mod plain_reader;
mod refusals;
mod types;
mod views;

use plain_reader::compare_damaged;

fn here() -> Ipv6Address {
    Ipv6Address::new(0xfe80, 0, 0, 0, 0, 0, 0, 1)
}

fn there() -> Ipv6Address {
    Ipv6Address::new(0xfe80, 0, 0, 0, 0, 0, 0, 2)
}

// fe80::1/64 with all flags, valid for 900 seconds and preferred for 1,000.
const PREFIX: [u8; 32] = [
    0x03, 0x04, 0x40, 0xc0, 0x00, 0x00, 0x03, 0x84, 0x00, 0x00, 0x03, 0xe8, 0x00, 0x00, 0x00, 0x00,
    0xfe, 0x80, 0, 0, 0, 0, 0, 0, 0, 0, 0, 0, 0, 0, 0, 0x01,
];

fn prefix_information() -> PrefixInformation {
    PrefixInformation {
        prefix_len: 64,
        flags: PrefixInfoFlags::ON_LINK | PrefixInfoFlags::ADDRCONF,
        valid_lifetime: Duration::from_secs(900),
        preferred_lifetime: Duration::from_secs(1_000),
        prefix: here(),
    }
}

// That prefix, valid for a part of a second more, which is not written.
fn longer_prefix_information() -> PrefixInformation {
    let mut info = prefix_information();
    info.valid_lifetime = Duration::from_micros(900_999_999);
    info
}

// From fe80::1 to fe80::2, 4 bytes of UDP.
const REDIRECTED: [u8; 56] = [
    0x04, 0x07, 0, 0, 0, 0, 0, 0, 0x60, 0x00, 0x00, 0x00, 0x00, 0x04, 0x11, 0x40, 0xfe, 0x80, 0, 0,
    0, 0, 0, 0, 0, 0, 0, 0, 0, 0, 0, 0x01, 0xfe, 0x80, 0, 0, 0, 0, 0, 0, 0, 0, 0, 0, 0, 0, 0, 0x02,
    0xaa, 0xbb, 0xcc, 0xdd, 0x00, 0x00, 0x00, 0x00,
];

fn redirected_header() -> RedirectedHeader<'static> {
    let header = Ipv6Repr {
        src_addr: here(),
        dst_addr: there(),
        next_header: IpProtocol::Udp,
        payload_len: 4,
        hop_limit: 64,
    };
    RedirectedHeader {
        header,
        data: &[0xaa, 0xbb, 0xcc, 0xdd],
    }
}

// What reading these bytes gives.
fn read(bytes: &[u8]) -> Result<Repr<'_>, Error> {
    Repr::parse(&NdiscOption::new_unchecked(bytes))
}

fn ethernet() -> RawHardwareAddress {
    RawHardwareAddress::from_bytes(&[0x52, 0x54, 0x00, 0x12, 0x34, 0x56])
}

const SOURCE: &[u8] = &[0x01, 0x01, 0x52, 0x54, 0x00, 0x12, 0x34, 0x56];

const TARGET: &[u8] = &[0x02, 0x01, 0x52, 0x54, 0x00, 0x12, 0x34, 0x56];

const MTU: [u8; 8] = [0x05, 0x01, 0x00, 0x00, 0x00, 0x00, 0x05, 0xdc];

// One of 16,909,060 bytes, of which each byte is another.
const GREAT_MTU: [u8; 8] = [0x05, 0x01, 0x00, 0x00, 0x01, 0x02, 0x03, 0x04];

const UNKNOWN: [u8; 8] = [0x0e, 0x01, 1, 2, 3, 4, 5, 6];

fn unknown() -> Repr<'static> {
    Repr::Unknown {
        type_: 14,
        length: 1,
        data: &[1, 2, 3, 4, 5, 6],
    }
}

// A source's address of 7 bytes, in two units.
const LONG_SOURCE: [u8; 16] = [0x01, 0x02, 1, 2, 3, 4, 5, 6, 7, 0, 0, 0, 0, 0, 0, 0];

#[test]
fn damaged_options() {
    const ROWS: &[&[u8]] = &[
        SOURCE,
        TARGET,
        &LONG_SOURCE,
        &PREFIX,
        &REDIRECTED,
        &MTU,
        &UNKNOWN,
    ];
    for &octets in ROWS {
        compare_damaged(octets);
    }
}

// Compares what is read in these bytes.
fn check_read(bytes: &[u8], repr: &Repr<'_>) {
    let Ok(read) = read(bytes) else {
        holds_of(bytes, false);
        return;
    };
    same_of(bytes, &read, repr);
}

#[test]
fn options_are_read() {
    check_read(SOURCE, &Repr::SourceLinkLayerAddr(ethernet()));
    check_read(TARGET, &Repr::TargetLinkLayerAddr(ethernet()));
    check_read(&PREFIX, &Repr::PrefixInformation(prefix_information()));
    check_read(&REDIRECTED, &Repr::RedirectedHeader(redirected_header()));
    check_read(&MTU, &Repr::Mtu(1_500));
    check_read(&GREAT_MTU, &Repr::Mtu(0x0102_0304));
    check_read(&UNKNOWN, &unknown());
}

// What writing an option over so many of 56 octets of this kind leaves.
fn written(repr: &Repr<'_>, filler: u8, len: usize) -> [u8; 56] {
    let mut octets = [filler; 56];
    repr.emit_into(&mut octets[..len]);
    octets
}

// Writes an option over as many octets as it takes, 56 at most, of any kind.
fn check_written(repr: &Repr<'_>, text: &[u8]) {
    let len = repr.buffer_len();
    holds_of(text, len <= 56);
    for &filler in FILLERS {
        same_of(filler, &written(repr, filler, len)[..len], text);
    }
}

#[test]
fn options_are_written_over_octets_of_any_kind() {
    let prefix = Repr::PrefixInformation(prefix_information());
    check_written(&prefix, &PREFIX);
    let longer = Repr::PrefixInformation(longer_prefix_information());
    check_written(&longer, &PREFIX);
    let redirected = Repr::RedirectedHeader(redirected_header());
    check_written(&redirected, &REDIRECTED);
    check_written(&Repr::Mtu(1_500), &MTU);
    check_written(&Repr::Mtu(0x0102_0304), &GREAT_MTU);
    check_written(&unknown(), &UNKNOWN);
}

#[test]
fn flags_without_a_name_are_not_read() {
    let mut bytes = PREFIX;
    bytes[3] = 0xff;
    same(
        &read(&bytes),
        &Ok(Repr::PrefixInformation(prefix_information())),
    );
}

// Whether addresses are made of a prefix of these flags and octets, valid and preferred for so many seconds.
fn makes_addresses(flags: u8, prefix: [u8; 16], valid: u32, preferred: u32) -> bool {
    let info = PrefixInformation {
        prefix_len: 64,
        flags: PrefixInfoFlags::from_bits_retain(flags),
        valid_lifetime: Duration::from_secs(valid as u64),
        preferred_lifetime: Duration::from_secs(preferred as u64),
        prefix: Ipv6Address::from_octets(prefix),
    };
    info.is_valid_prefix_info()
}

#[test]
fn prefixes_that_addresses_are_made_of() {
    const GLOBAL: [u8; 16] = [0x20, 0x01, 0x0d, 0xb8, 0, 0, 0, 0, 0, 0, 0, 0, 0, 0, 0, 0];
    const HERE: [u8; 16] = [0xfe, 0x80, 0, 0, 0, 0, 0, 0, 0, 0, 0, 0, 0, 0, 0, 1];
    // The flags, of which 0x40 is asked, the prefix, the seconds that it is valid and preferred, and whether addresses
    // are made of it.
    const ROWS: &[(u8, [u8; 16], u32, u32, bool)] = &[
        (0x40, GLOBAL, 900, 900, true),
        (0xc0, GLOBAL, 900, 0, true),
        (0x80, GLOBAL, 900, 900, false),
        (0x40, HERE, 900, 900, false),
        (0x40, GLOBAL, 900, 901, false),
        (0xc0, HERE, 900, 1_000, false),
    ];
    for &(flags, prefix, valid, preferred, is_valid) in ROWS {
        let made = makes_addresses(flags, prefix, valid, preferred);
        same_of((flags, preferred), made, is_valid);
    }
}

// Compares what the option that is read in these bytes prints.
fn check_printed(bytes: &[u8], text: &str) {
    let Ok(option) = read(bytes) else {
        holds_of(bytes, false);
        return;
    };
    prints(&option, text);
}

#[test]
fn options_in_words() {
    const ROWS: &[(&[u8], &str)] = &[
        (
            SOURCE,
            "NDISC Option: SourceLinkLayer addr=52:54:00:12:34:56",
        ),
        (
            TARGET,
            "NDISC Option: TargetLinkLayer addr=52:54:00:12:34:56",
        ),
        (
            &PREFIX,
            "NDISC Option: PrefixInformation prefix=fe80::1/64 flags=on_link,addrconf \
             valid_lifetime=900.000s preferred_lifetime=1000.000s",
        ),
        (
            &REDIRECTED,
            "NDISC Option: RedirectedHeader header=IPv6 src=fe80::1 dst=fe80::2 nxt_hdr=17 hop_limit=64 \
             payload_len=4 data=aabbccdd",
        ),
        (&MTU, "NDISC Option: MTU mtu=1500"),
        (
            &UNKNOWN,
            "NDISC Option: Unknown(14) length=1 data=010203040506",
        ),
    ];
    for &(bytes, text) in ROWS {
        check_printed(bytes, text);
    }
}

#[test]
fn prefixes_and_redirected_headers_in_words() {
    const PREFIX_TEXT: &str = "PrefixInformation prefix_len=64 flags=on_link,addrconf \
        valid_lifetime=900.000s preferred_lifetime=1000.000s prefix=fe80::1";
    prints(&prefix_information(), PREFIX_TEXT);
    const PACKET_TEXT: &str = "RedirectedHeader header=IPv6 src=fe80::1 dst=fe80::2 nxt_hdr=17 hop_limit=64 payload_len=4 data=aabbccdd";
    prints(&redirected_header(), PACKET_TEXT);
}

#[test]
fn what_differs_in_one_field_prints_differently() {
    let info = prefix_information();
    let others = [
        PrefixInformation {
            prefix_len: 65,
            ..info
        },
        PrefixInformation {
            flags: PrefixInfoFlags::ON_LINK,
            ..info
        },
        PrefixInformation {
            valid_lifetime: Duration::from_secs(901),
            ..info
        },
        PrefixInformation {
            preferred_lifetime: Duration::from_secs(1_001),
            ..info
        },
        PrefixInformation {
            prefix: there(),
            ..info
        },
    ];
    for other in others {
        print_differently(
            &Repr::PrefixInformation(info),
            &Repr::PrefixInformation(other),
        );
        print_differently(&info, &other);
    }
    let redirected = redirected_header();
    let mut counted = redirected;
    counted.header.payload_len = 5;
    print_differently(&redirected, &counted);
    let other = RedirectedHeader {
        data: &[0xaa, 0xbb, 0xcc, 0xde],
        ..redirected
    };
    print_differently(&redirected, &other);
}

#[test]
fn equal_texts_of_options() {
    let short = Repr::SourceLinkLayerAddr(RawHardwareAddress::from_bytes(&[1, 2, 3, 4, 5]));
    let filled = Repr::SourceLinkLayerAddr(RawHardwareAddress::from_bytes(&[1, 2, 3, 4, 5, 0]));
    let mut first = [0x2a; 8];
    short.emit_into(&mut first);
    let mut second = [0xa5; 8];
    filled.emit_into(&mut second);
    same(first, second);
    same(
        &read(&first),
        &Ok(Repr::SourceLinkLayerAddr(RawHardwareAddress::from_bytes(
            &[1, 2, 3, 4, 5, 0],
        ))),
    );
}
