//! Texts of numbers that need all the bits of their field, and of records with fields around their names.

use control_wire::dns::{Packet, Type};
use control_wire::icmpv6::{ParamProblem, Repr};
use control_wire::record::{Record, types};
use control_wire::{IpProtocol, Ipv6Address, Ipv6Repr};

#[test]
fn a_pointer_of_an_icmpv6_error_prints_all_its_32_bits() {
    let header = Ipv6Repr {
        src_addr: Ipv6Address::new(0xfe80, 0, 0, 0, 0, 0, 0, 1),
        dst_addr: Ipv6Address::new(0xfe80, 0, 0, 0, 0, 0, 0, 2),
        next_header: IpProtocol::Udp,
        payload_len: 0,
        hop_limit: 64,
    };
    for pointer in [6, 65_542, 16_777_222, u32::MAX] {
        let error = Repr::ParamProblem {
            reason: ParamProblem::UnrecognizedNxtHdr,
            pointer,
            header,
            data: &[],
        };
        assert_eq!(
            error.to_string(),
            format!("ICMPv6 parameter problem (unrecognized next header type.) pointer={pointer}")
        );
    }
}

// A message with the name example.com at 12, and com at 20.
const MESSAGE: &[u8] = b"\0\0\x84\0\0\0\0\0\0\0\0\0\x07example\x03com\0";

#[test]
fn texts_of_fields() {
    const ROWS: [(Type, &[u8], &str); 7] = [
        (types::RP, b"\x04root\xc0\x0c\0", "RP root.example.com. ."),
        (types::AFSDB, b"\0\x01\x03afs\xc0\x14", "AFSDB 1 afs.com."),
        (
            types::PX,
            b"\0\x0a\x03net\xc0\x0c\x04x400\xc0\x14",
            "PX 10 net.example.com. x400.com.",
        ),
        (
            types::NAPTR,
            b"\0\x64\0\x32\x01a\x0dz3950+N2L+N2C\0\x09cidserver\xc0\x0c",
            "NAPTR 100 50 \"a\" \"z3950+N2L+N2C\" \"\" cidserver.example.com.",
        ),
        (
            types::SIG,
            b"\0\x01\x05\x03\0\0\x0e\x10\xff\xff\xff\xff\x80\0\0\0\x53\xbb\xc0\x0cfoob",
            "SIG A 5 3 3600 4294967295 2147483648 21435 example.com. Zm9vYg==",
        ),
        (
            types::NXT,
            b"\x06medium\xc0\x0c\x40\x01\0\x82",
            "NXT medium.example.com. A MX SIG NXT",
        ),
        (
            types::NSEC,
            b"\xc0\x0c\0\x05\x40\0\x80\x08\x40\x01\x01\x40",
            "NSEC example.com. A TXT AAAA SRV CAA",
        ),
    ];
    let packet = Packet::new_unchecked(MESSAGE);
    for (type_, data, text) in ROWS {
        let record = Record {
            name: b"\xc0\x0c",
            type_,
            class: 1,
            ttl: 3600,
            data,
        };
        let line = record.text(&packet).unwrap().to_string();
        assert_eq!(line, format!("example.com. 3600 IN {text}"));
    }
}
