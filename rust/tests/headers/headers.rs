// Made from crates/tests_headers/src/headers.rt by rust/erase.
//! Headers of IPv4: the examples of RFC 791 appendix A with the checksums that it leaves out, and others worked from
//! the pictures of the RFCs.

use crate::testing::{prints, same, same_of, takes_writes};
use control_wire::headers::ipv4::{FIXED_LEN, MAX_OPTIONS_LEN, Refusal};
use control_wire::headers::{Header, ROUTER_ALERT};
use control_wire::{IpProtocol, Ipv4Address};

// The octets of a buffer before it is written into.
const FILLS: &[u8] = &[0x00, 0xff, 0x2a, 0xa5];

// RFC 791 appendix A, example 1, whose payload is one octet.
const EXAMPLE: [u8; 21] = [
    0x45, 0x00, 0x00, 0x15, 0x00, 0x6f, 0x00, 0x00, 0x7b, 0x01, 0x2b, 0x77, 0x0a, 0x00, 0x00, 0x01,
    0x0a, 0x00, 0x00, 0x02, 0x78,
];

// These octets in front of others.
fn in_front<const N: usize>(front: &[u8], fill: u8) -> [u8; N] {
    let mut octets = [fill; N];
    if front.len() <= N {
        octets[..front.len()].copy_from_slice(front);
    }
    octets
}

// Checks that a header before a payload, and before octets that are none of it, is read, prints this, and is written
// as it was over the front of any octets.
fn check(header: &[u8], text: &str) {
    let octets: [u8; 640] = in_front(header, 0x78);
    let (read, payload) = match Header::parse(&octets) {
        Ok(both) => both,
        Err(refusal) => return same_of(header, Some(refusal), None),
    };
    prints(&read, text);
    let len = read.buffer_len();
    same_of(header, len, header.len());
    same_of(
        header,
        Some(payload),
        octets.get(len..len + read.payload_len),
    );
    for &fill in FILLS {
        let mut buffer = [fill; 64];
        read.emit_into(&mut buffer);
        same_of(header, buffer, in_front(header, fill));
    }
}

#[test]
fn headers_that_are_read_and_written() {
    let rows: &[(&[u8], &str)] = &[
        (
            &[
                0x45, 0x00, 0x00, 0x73, 0x00, 0x00, 0x40, 0x00, 0x40, 0x11, 0xb8, 0x61, 0xc0, 0xa8,
                0x00, 0x01, 0xc0, 0xa8, 0x00, 0xc7,
            ],
            "192.168.0.1 > 192.168.0.199 protocol=UDP service=0 hop_limit=64 \
             ident=0 dont_frag=true more_frags=false offset=0 options=0 len=95",
        ),
        (
            &EXAMPLE[..20],
            "10.0.0.1 > 10.0.0.2 protocol=ICMP service=0 hop_limit=123 \
             ident=111 dont_frag=false more_frags=false offset=0 options=0 len=1",
        ),
        // Example 2, of which these are the fragments.
        (
            &[
                0x45, 0x00, 0x01, 0x14, 0x00, 0x6f, 0x20, 0x00, 0x77, 0x06, 0x0e, 0x73, 0x0a, 0x00,
                0x00, 0x01, 0x0a, 0x00, 0x00, 0x02,
            ],
            "10.0.0.1 > 10.0.0.2 protocol=TCP service=0 hop_limit=119 \
             ident=111 dont_frag=false more_frags=true offset=0 options=0 len=256",
        ),
        (
            &[
                0x45, 0x00, 0x00, 0xd8, 0x00, 0x6f, 0x00, 0x20, 0x77, 0x06, 0x2e, 0x8f, 0x0a, 0x00,
                0x00, 0x01, 0x0a, 0x00, 0x00, 0x02,
            ],
            "10.0.0.1 > 10.0.0.2 protocol=TCP service=0 hop_limit=119 \
             ident=111 dont_frag=false more_frags=false offset=32 options=0 len=196",
        ),
        // Example 3.
        (
            &[
                0x48, 0x00, 0x02, 0x40, 0x00, 0x6f, 0x00, 0x00, 0x7b, 0x06, 0xc7, 0xfe, 0x0a, 0x00,
                0x00, 0x01, 0x0a, 0x00, 0x00, 0x02, 0x82, 0x03, 0xaa, 0x83, 0x04, 0xbb, 0xcc, 0x01,
                0x84, 0x03, 0xdd, 0x00,
            ],
            "10.0.0.1 > 10.0.0.2 protocol=TCP service=0 hop_limit=123 \
             ident=111 dont_frag=false more_frags=false offset=0 options=12 len=544",
        ),
        // The code point 46, and congestion notification 1 (RFC 2474, RFC 3168).
        (
            &[
                0x45, 0xb9, 0x00, 0x1c, 0x12, 0x34, 0x40, 0x00, 0x40, 0x11, 0x3b, 0xa8, 0xc0, 0x00,
                0x02, 0x01, 0xc6, 0x33, 0x64, 0x07,
            ],
            "192.0.2.1 > 198.51.100.7 protocol=UDP service=185 hop_limit=64 \
             ident=4660 dont_frag=true more_frags=false offset=0 options=0 len=8",
        ),
    ];
    for (header, text) in rows {
        check(header, text);
    }
}

// It alerts routers (RFC 2236 section 2), and has the service that RFC 3376 section 4 asks for.
#[test]
fn the_header_of_a_query_of_igmp() {
    let query = Header {
        service: 0xc0,
        ident: 0,
        dont_frag: true,
        more_frags: false,
        frag_offset: 0,
        hop_limit: 1,
        protocol: IpProtocol::Igmp,
        src_addr: Ipv4Address::new(192, 168, 1, 1),
        dst_addr: Ipv4Address::new(224, 0, 0, 1),
        options: &ROUTER_ALERT,
        payload_len: 8,
    };
    let mut octets = [0; 32];
    query.emit_into(&mut octets);
    let wanted = in_front(
        &[
            0x46, 0xc0, 0x00, 0x20, 0x00, 0x00, 0x40, 0x00, 0x01, 0x02, 0x42, 0x6d, 0xc0, 0xa8,
            0x01, 0x01, 0xe0, 0x00, 0x00, 0x01, 0x94, 0x04, 0x00, 0x00,
        ],
        0,
    );
    same(octets, wanted);
    same(Header::parse(&octets), Ok((query, &[0; 8][..])));
    prints(
        &query,
        "192.168.1.1 > 224.0.0.1 protocol=IGMP service=192 hop_limit=1 \
         ident=0 dont_frag=true more_frags=false offset=0 options=4 len=8",
    );
}

// All numbers are the greatest, and so are the options and the payload.
#[test]
fn the_greatest_header() {
    let options = [0x01; MAX_OPTIONS_LEN];
    let header = Header {
        service: 0xff,
        ident: 0xffff,
        dont_frag: true,
        more_frags: true,
        frag_offset: 0x1fff,
        hop_limit: 0xff,
        protocol: IpProtocol::Unknown(0xff),
        src_addr: Ipv4Address::new(255, 255, 255, 255),
        dst_addr: Ipv4Address::new(255, 255, 255, 255),
        options: &options,
        payload_len: 65_475,
    };
    same(header.buffer_len(), FIXED_LEN + MAX_OPTIONS_LEN);
    let mut octets = [0; 60];
    header.emit_into(&mut octets);
    let start = [
        0x4f, 0xff, 0xff, 0xff, 0xff, 0xff, 0x7f, 0xff, 0xff, 0xff, 0x1b, 0xed, 0xff, 0xff, 0xff,
        0xff, 0xff, 0xff, 0xff, 0xff,
    ];
    let wanted = in_front(&start, 0x01);
    same(octets, wanted);
    same(Header::parse(&octets), Err(Refusal::Cut(65_535)));
}

// The first flag is reserved: it is not looked at, and is written as zero (RFC 791 section 3.1).
#[test]
fn the_reserved_flag_is_ignored() {
    let mut octets = EXAMPLE;
    octets[6] = 0x80;
    octets[10] = 0xab;
    octets[11] = 0x76;
    same(Header::parse(&octets), Header::parse(&EXAMPLE));
}

#[test]
fn what_is_refused_of_headers() {
    // An octet of the example, another value of it, and the reason.
    let rows: &[(usize, u8, Refusal)] = &[
        (0, 0x65, Refusal::Version(6)),
        (0, 0x05, Refusal::Version(0)),
        (0, 0x44, Refusal::HeaderLen(16)),
        (0, 0x4f, Refusal::HeaderCut(60)),
        (3, 0x13, Refusal::TotalLen(19)),
        (3, 0x16, Refusal::Cut(22)),
        (8, 0x7a, Refusal::Checksum),
        (11, 0x78, Refusal::Checksum),
    ];
    for &(at, octet, refusal) in rows {
        let mut octets = EXAMPLE;
        if at < 21 {
            octets[at] = octet;
        }
        same_of((at, octet), Header::parse(&octets).err(), Some(refusal));
    }
    for len in 0..=21 {
        let refusal = match len {
            0..=19 => Some(Refusal::Short),
            20 => Some(Refusal::Cut(21)),
            _ => None,
        };
        same_of(len, Header::parse(&EXAMPLE[..len]).err(), refusal);
    }
}

#[test]
fn texts_of_reasons_of_headers() {
    let rows: &[(Refusal, &str)] = &[
        (Refusal::Short, "fewer than 20 bytes"),
        (Refusal::Version(6), "version 6 is not read"),
        (Refusal::HeaderLen(16), "a header length of 16 is below 20"),
        (
            Refusal::HeaderCut(60),
            "fewer than the 60 bytes of the header",
        ),
        (
            Refusal::TotalLen(19),
            "a total length of 19 is below that of the header",
        ),
        (Refusal::Cut(21), "fewer than the 21 bytes of the packet"),
        (Refusal::Checksum, "the checksum does not hold"),
    ];
    for (refusal, text) in rows {
        prints(refusal, text);
    }
    takes_writes(&Refusal::Short, 1);
}
