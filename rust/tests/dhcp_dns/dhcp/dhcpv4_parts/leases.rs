// Made from crates/tests_dhcp_dns/src/dhcp/dhcpv4_parts/leases.rt by rust/erase.
//! The options of packets in tests/captures/real/lease.pcap, and those that tshark 4.0 reads in them.

use super::{Fields, Row, check_overload};
use control_wire::dhcp_options::Area;

const DISCOVER: &[u8] =
    b"5\x01\x019\x02\x02@7\x07\x01\x03\x06\x0c\x0f\x1c*\x0c\x04host<\x0cudhcp\x201.35.0\
    =\x07\x01\x02\0\0\0\0\x07\xff\0\0\0\0\0\0\0\0\0\0\0\0\0\0";

const DISCOVER_ROWS: &[Row] = &[
    (Area::Options, 53, Some(b"\x01"), true),
    (Area::Options, 57, Some(b"\x02@"), true),
    (Area::Options, 55, Some(b"\x01\x03\x06\x0c\x0f\x1c*"), true),
    (Area::Options, 12, Some(b"host"), true),
    (Area::Options, 60, Some(b"udhcp\x201.35.0"), true),
    (Area::Options, 61, Some(b"\x01\x02\0\0\0\0\x07"), true),
];

const OFFER: &[u8] = b"5\x01\x026\x04\xc0\0\x02\x013\x04\0\0\x0e\x10:\x04\0\0\x07\x08;\x04\0\0\x0cN\
    \x01\x04\xff\xff\xff\0\x1c\x04\xc0\0\x02\xff*\x04\xc0\0\x02\x03\x06\x08\xc0\0\x02\x01\xc0\0\x02\x02\
    \x03\x04\xc0\0\x02\x01\xff";

const OFFER_ROWS: &[Row] = &[
    (Area::Options, 53, Some(b"\x02"), true),
    (Area::Options, 54, Some(b"\xc0\0\x02\x01"), true),
    (Area::Options, 51, Some(b"\0\0\x0e\x10"), true),
    (Area::Options, 58, Some(b"\0\0\x07\x08"), true),
    (Area::Options, 59, Some(b"\0\0\x0cN"), true),
    (Area::Options, 1, Some(b"\xff\xff\xff\0"), true),
    (Area::Options, 28, Some(b"\xc0\0\x02\xff"), true),
    (Area::Options, 42, Some(b"\xc0\0\x02\x03"), true),
    (
        Area::Options,
        6,
        Some(b"\xc0\0\x02\x01\xc0\0\x02\x02"),
        true,
    ),
    (Area::Options, 3, Some(b"\xc0\0\x02\x01"), true),
];

const REQUEST: &[u8] =
    b"5\x01\x032\x04\xc0\0\x0226\x04\xc0\0\x02\x019\x02\x02@7\x07\x01\x03\x06\x0c\x0f\x1c*\
    \x0c\x04host<\x0cudhcp\x201.35.0=\x07\x01\x02\0\0\0\0\x07\xff\0\0";

const REQUEST_ROWS: &[Row] = &[
    (Area::Options, 53, Some(b"\x03"), true),
    (Area::Options, 50, Some(b"\xc0\0\x022"), true),
    (Area::Options, 54, Some(b"\xc0\0\x02\x01"), true),
    (Area::Options, 57, Some(b"\x02@"), true),
    (Area::Options, 55, Some(b"\x01\x03\x06\x0c\x0f\x1c*"), true),
    (Area::Options, 12, Some(b"host"), true),
    (Area::Options, 60, Some(b"udhcp\x201.35.0"), true),
    (Area::Options, 61, Some(b"\x01\x02\0\0\0\0\x07"), true),
];

const ACK: &[u8] = b"5\x01\x056\x04\xc0\0\x02\x013\x04\0\0\x0e\x10:\x04\0\0\x07\x08;\x04\0\0\x0cN\
    \x01\x04\xff\xff\xff\0\x1c\x04\xc0\0\x02\xff\x0c\x04host*\x04\xc0\0\x02\x03\
    \x06\x08\xc0\0\x02\x01\xc0\0\x02\x02\x03\x04\xc0\0\x02\x01\xff";

const ACK_ROWS: &[Row] = &[
    (Area::Options, 53, Some(b"\x05"), true),
    (Area::Options, 54, Some(b"\xc0\0\x02\x01"), true),
    (Area::Options, 51, Some(b"\0\0\x0e\x10"), true),
    (Area::Options, 58, Some(b"\0\0\x07\x08"), true),
    (Area::Options, 59, Some(b"\0\0\x0cN"), true),
    (Area::Options, 1, Some(b"\xff\xff\xff\0"), true),
    (Area::Options, 28, Some(b"\xc0\0\x02\xff"), true),
    (Area::Options, 12, Some(b"host"), true),
    (Area::Options, 42, Some(b"\xc0\0\x02\x03"), true),
    (
        Area::Options,
        6,
        Some(b"\xc0\0\x02\x01\xc0\0\x02\x02"),
        true,
    ),
    (Area::Options, 3, Some(b"\xc0\0\x02\x01"), true),
];

const RELEASE: &[u8] = b"5\x01\x076\x04\xc0\0\x02\x01=\x07\x01\x02\0\0\0\0\x07\
    \xff\0\0\0\0\0\0\0\0\0\0\0\0\0\0\0\0\0\0\0\0\0\0\0\0\0\0\0\0\0\0\0\0\0\0\0\0\0\0\0\0\0";

const RELEASE_ROWS: &[Row] = &[
    (Area::Options, 53, Some(b"\x07"), true),
    (Area::Options, 54, Some(b"\xc0\0\x02\x01"), true),
    (Area::Options, 61, Some(b"\x01\x02\0\0\0\0\x07"), true),
];

const LONG_OFFER: &[u8] =
    b"5\x01\x026\x04\xc0\0\x02\x013\x04\0\0\x0e\x10:\x04\0\0\x07\x08;\x04\0\0\x0cN\
    \x01\x04\xff\xff\xff\0\x1c\x04\xc0\0\x02\xff\
    \x06\x18\xc0\0\x02\x01\xc0\0\x02\x02\xc0\0\x02\x03\xc0\0\x02\x04\xc0\0\x02\x05\xc0\0\x02\x06\
    \x03\x08\xc0\0\x02\x01\xc0\0\x02\x09*\x04\xc0\0\x02\x03\xff";

const LONG_OFFER_ROWS: &[Row] = &[
    (Area::Options, 53, Some(b"\x02"), true),
    (Area::Options, 54, Some(b"\xc0\0\x02\x01"), true),
    (Area::Options, 51, Some(b"\0\0\x0e\x10"), true),
    (Area::Options, 58, Some(b"\0\0\x07\x08"), true),
    (Area::Options, 59, Some(b"\0\0\x0cN"), true),
    (Area::Options, 1, Some(b"\xff\xff\xff\0"), true),
    (Area::Options, 28, Some(b"\xc0\0\x02\xff"), true),
    (
        Area::Options,
        6,
        Some(
            b"\xc0\0\x02\x01\xc0\0\x02\x02\xc0\0\x02\x03\xc0\0\x02\x04\xc0\0\x02\x05\xc0\0\x02\x06",
        ),
        true,
    ),
    (
        Area::Options,
        3,
        Some(b"\xc0\0\x02\x01\xc0\0\x02\x09"),
        true,
    ),
    (Area::Options, 42, Some(b"\xc0\0\x02\x03"), true),
];

#[test]
fn the_packets_of_leases() {
    const PACKETS: &[(&[u8], &[Row])] = &[
        (DISCOVER, DISCOVER_ROWS),
        (OFFER, OFFER_ROWS),
        (REQUEST, REQUEST_ROWS),
        (ACK, ACK_ROWS),
        (RELEASE, RELEASE_ROWS),
        (LONG_OFFER, LONG_OFFER_ROWS),
    ];
    for &(options, rows) in PACKETS {
        let fields = Fields {
            sname: b"",
            file: b"",
            options,
        };
        check_overload(fields, None, rows);
    }
}
