// Made from crates/tests_above/src/frame/joined.rt by rust/erase.
use crate::testing::same_of;
use control_wire::frames::datagram::{Addresses, Datagram, Head, Refusal};
use control_wire::{IpProtocol, Ipv4Address, Ipv6Address};

fn over_v4() -> Addresses {
    Addresses::V4(
        Ipv4Address::new(192, 0, 2, 1),
        Ipv4Address::new(192, 0, 2, 53),
    )
}

fn over_v6(last: u16) -> Addresses {
    Addresses::V6(
        Ipv6Address::new(0x2001, 0x0db8, 0, 0, 0, 0, 0, 1),
        Ipv6Address::new(0x2001, 0x0db8, 0, 0, 0, 0, 0, last),
    )
}

// Options that are padding, before the header of a fragment, before one byte.
const OPTIONS: &[u8] = &[
    44, 0, 1, 4, 0, 0, 0, 0, //
    17, 0, 0x05, 0xa9, 0, 0, 0x12, 0x34, 0xff,
];

// The same fragment, but alone.
const ATOMIC: &[u8] = &[
    44, 0, 1, 4, 0, 0, 0, 0, //
    17, 0, 0, 0, 0, 0, 0x12, 0x34, 0xff,
];

// The routing header of a mobile node (RFC 6275 section 6.4) whose address is 2001:db8::7, before one byte.
const HOME: &[u8] = &[
    17, 2, 2, 1, 0, 0, 0, 0, 0x20, 0x01, 0x0d, 0xb8, 0, 0, 0, 0, 0, 0, 0, 0, 0, 0, 0, 7, //
    0xff,
];

#[test]
fn payloads_that_are_put_together() {
    let udp = IpProtocol::Udp;
    let options = IpProtocol::Ipv6Opts;
    let rows: [(Addresses, IpProtocol, &[u8], Addresses, IpProtocol, usize); 7] = [
        (over_v4(), udp, OPTIONS, over_v4(), udp, 0),
        // Over IPv4 no header is passed.
        (over_v4(), options, ATOMIC, over_v4(), options, 0),
        (over_v6(53), udp, OPTIONS, over_v6(53), udp, 0),
        (over_v6(53), udp, &[], over_v6(53), udp, 0),
        (over_v6(53), options, ATOMIC, over_v6(53), udp, 16),
        (
            over_v6(53),
            IpProtocol::Ipv6Frag,
            &ATOMIC[8..],
            over_v6(53),
            udp,
            8,
        ),
        (
            over_v6(53),
            IpProtocol::Ipv6Route,
            HOME,
            over_v6(7),
            udp,
            24,
        ),
    ];
    for (addresses, first, octets, to, protocol, place) in rows {
        let want = Datagram {
            addresses: to,
            protocol,
            hop_limit: 0,
            hop_by_hop: None,
            payload: &octets[place..],
        };
        same_of(octets, Datagram::joined(addresses, first, octets), Ok(want));
    }
}

#[test]
fn payloads_that_are_refused() {
    let options = IpProtocol::Ipv6Opts;
    let fragment = IpProtocol::Ipv6Frag;
    for len in 0..=17 {
        let told = Datagram::joined(over_v6(53), options, &OPTIONS[..len]);
        let want = match len {
            0..=7 => Refusal::Extension(options),
            8..=15 => Refusal::Extension(fragment),
            _ => Refusal::Fragment(Head {
                addresses: over_v6(53),
                protocol: IpProtocol::Udp,
                ident: Some(0x1234),
                frag_offset: 1448,
                more_frags: true,
            }),
        };
        same_of(len, told, Err(want));
    }
    // A routing header that lacks a byte.
    let told = Datagram::joined(over_v6(53), IpProtocol::Ipv6Route, &HOME[..23]);
    same_of(HOME, told, Err(Refusal::Extension(IpProtocol::Ipv6Route)));
}
