// Made from crates/tests_neighbors/src/prefixes.rt by rust/erase.
//! The preferences of routers and routes, where routes lead, and the addresses that prefixes of NAT64 make.

use crate::testing::{prints, same, same_of, takes_writes};
use control_wire::neighbors::preference::{router_preference, with_preference};
use control_wire::neighbors::{Nat64Length, Nat64Prefix, Preference, Route};
use control_wire::{Ipv4Address, Ipv6Address};

// Bits 3 and 4 of the flags of a router advertisement (RFC 4191 section 2.2).
#[test]
fn preferences_in_flags() {
    for (flags, preference, text) in [
        (0x08, Preference::High, "high"),
        (0xc0, Preference::Medium, "medium"),
        (0x18, Preference::Low, "low"),
        (0x10, Preference::Reserved, "reserved"),
    ] {
        same_of(flags, router_preference(flags), preference);
        same_of(flags, with_preference(flags, preference), flags);
        prints(&preference, text);
        takes_writes(&preference, 1);
    }
    for (flags, preference, with) in [
        (0xc7, Preference::Low, 0xdf),
        (0xff, Preference::Medium, 0xe7),
        (0xff, Preference::High, 0xef),
        (0xff, Preference::Reserved, 0xf7),
        (0x00, Preference::Low, 0x18),
    ] {
        same_of(flags, with_preference(flags, preference), with);
        same_of(with, router_preference(with), preference);
    }
}

// The octets behind those of a route are zero, and more than sixteen are ignored.
#[test]
fn where_routes_lead() {
    let octets = [
        0x20, 0x01, 0x0d, 0xb8, 0x00, 0xaa, 0x00, 0x00, 0x00, 0x00, 0x00, 0x00, 0x00, 0x00, 0x00,
        0x01, 0x5a,
    ];
    let part = Ipv6Address::new(0x2001, 0xdb8, 0xaa, 0, 0, 0, 0, 0);
    let whole = Ipv6Address::new(0x2001, 0xdb8, 0xaa, 0, 0, 0, 0, 1);
    let rows: &[(&[u8], Ipv6Address)] = &[
        (&octets[..0], Ipv6Address::UNSPECIFIED),
        (&octets[..8], part),
        (&octets[..16], whole),
        (&octets, whole),
    ];
    for (prefix, destination) in rows {
        let route = Route {
            prefix_len: 0,
            preference: Preference::Medium,
            lifetime: 0,
            prefix,
        };
        same_of(prefix, route.destination(), *destination);
    }
}

// The table of RFC 6052 section 2.4, for 192.0.2.33, and the prefix that it gives to all.
#[test]
fn addresses_that_a_nat64_makes() {
    let address = Ipv4Address::new(192, 0, 2, 33);
    let rows: &[(Nat64Length, u8, [u8; 12], &str)] = &[
        (
            Nat64Length::Bits32,
            32,
            [
                0x20, 0x01, 0x0d, 0xb8, 0x00, 0x00, 0x00, 0x00, 0x00, 0x00, 0x00, 0x00,
            ],
            "2001:db8:c000:221::",
        ),
        (
            Nat64Length::Bits40,
            40,
            [
                0x20, 0x01, 0x0d, 0xb8, 0x01, 0x00, 0x00, 0x00, 0x00, 0x00, 0x00, 0x00,
            ],
            "2001:db8:1c0:2:21::",
        ),
        (
            Nat64Length::Bits48,
            48,
            [
                0x20, 0x01, 0x0d, 0xb8, 0x01, 0x22, 0x00, 0x00, 0x00, 0x00, 0x00, 0x00,
            ],
            "2001:db8:122:c000:2:2100::",
        ),
        (
            Nat64Length::Bits56,
            56,
            [
                0x20, 0x01, 0x0d, 0xb8, 0x01, 0x22, 0x03, 0x00, 0x00, 0x00, 0x00, 0x00,
            ],
            "2001:db8:122:3c0:0:221::",
        ),
        (
            Nat64Length::Bits64,
            64,
            [
                0x20, 0x01, 0x0d, 0xb8, 0x01, 0x22, 0x03, 0x44, 0x00, 0x00, 0x00, 0x00,
            ],
            "2001:db8:122:344:c0:2:2100:0",
        ),
        (
            Nat64Length::Bits96,
            96,
            [
                0x20, 0x01, 0x0d, 0xb8, 0x01, 0x22, 0x03, 0x44, 0x00, 0x00, 0x00, 0x00,
            ],
            "2001:db8:122:344::c000:221",
        ),
        (
            Nat64Length::Bits96,
            96,
            [
                0x00, 0x64, 0xff, 0x9b, 0x00, 0x00, 0x00, 0x00, 0x00, 0x00, 0x00, 0x00,
            ],
            "64:ff9b::c000:221",
        ),
    ];
    for (length, bits, prefix, text) in rows {
        let nat64 = Nat64Prefix {
            scaled_lifetime: 225,
            length: *length,
            prefix,
        };
        same_of(text, length.bits(), *bits);
        same_of(text, nat64.lifetime(), 1800);
        prints(&nat64.address_of(address), text);
    }
}
