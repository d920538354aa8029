// Made from crates/tests_base/src/options/ipv6ext_header.rt by rust/erase.

use crate::options::plain_reader::{DAMAGE, LONGEST, check_kept, damaged};
use crate::testing::{FILLERS, holds_of, prints, same, same_of, takes_writes};
use control_wire::IpProtocol;
use control_wire::ipv6ext_header::{Header, Refusal, Repr};
use control_wire::ipv6option;
use control_wire::ipv6option::RouterAlert;

// A header, and a router alert with padding behind it.
const REPORT: &[u8] = &[0x3a, 0x00, 0x05, 0x02, 0x00, 0x00, 0x01, 0x00];

#[test]
fn a_header_in_front_of_a_router_alert() {
    const HEADER: Repr<'static> = Repr {
        next_header: IpProtocol::Icmpv6,
        length: 0,
        data: &[0x05, 0x02, 0x00, 0x00, 0x01, 0x00],
    };
    let read = Repr::parse(&Header::new_unchecked(REPORT));
    same(read.ok(), Some(HEADER));
}

// The data of a header, or none where it is refused.
fn data_in(octets: &[u8]) -> &[u8] {
    match Repr::parse(&Header::new_unchecked(octets)) {
        Ok(repr) => repr.data,
        Err(_) => &[],
    }
}

#[test]
fn a_router_alert_behind_a_header() {
    const OPTIONS: &[ipv6option::Repr<'static>] = &[
        ipv6option::Repr::RouterAlert(RouterAlert::MulticastListenerDiscovery),
        ipv6option::Repr::PadN(0),
    ];
    check_kept(data_in(REPORT), OPTIONS);
}

#[test]
fn headers_that_are_too_short() {
    const ROWS: &[&[u8]] = &[
        &[0x06, 0x02, 0, 0, 0, 0, 0, 0],
        &[0x06, 0x00, 0, 0, 0, 0, 0],
        &[0],
    ];
    for &octets in ROWS {
        holds_of(octets, Header::new_checked(octets).is_err());
        let header = Header::new_unchecked(octets);
        holds_of(octets, Repr::parse(&header).is_err());
    }
}

// A second reader of headers, by the rule of RFC 8200 section 4.3 alone: the length counts units of 8 bytes without the
// first 8. The tests compare the crate with it.
fn plain_header(octets: &[u8]) -> Option<Repr<'_>> {
    let [next_header, length, ..] = octets else {
        return None;
    };
    Some(Repr {
        next_header: IpProtocol::from(*next_header),
        length: *length,
        data: octets.get(2..8 + 8 * *length as usize)?,
    })
}

// Compares what is taken for a header, and what is read in it.
fn compare(octets: &[u8]) {
    let plain = plain_header(octets);
    let checked = Header::new_checked(octets).is_ok();
    same_of(octets, checked, plain.is_some());
    let read = Repr::parse(&Header::new_unchecked(octets)).ok();
    same_of(octets, read, plain);
    let told = Repr::refusal(&Header::new_unchecked(octets));
    same_of(octets, told.is_none(), plain.is_some());
}

#[test]
fn reasons_of_refused_headers() {
    const ROWS: &[(&[u8], Refusal, &str)] = &[
        (&[], Refusal::Short, "fewer than 8 bytes"),
        (
            &[0x3a, 0xff, 0, 0, 0, 0, 0],
            Refusal::Short,
            "fewer than 8 bytes",
        ),
        (
            &[0x06, 0x02, 0, 0, 0, 0, 0, 0],
            Refusal::Cut(24),
            "fewer than the 24 bytes that the header counts",
        ),
    ];
    for &(octets, refusal, text) in ROWS {
        let told = Repr::refusal(&Header::new_unchecked(octets));
        same_of(octets, told, Some(refusal));
        prints(&refusal, text);
    }
    takes_writes(&Refusal::Cut(24), 3);
}

#[test]
fn what_a_header_prints() {
    let header = Repr {
        next_header: IpProtocol::Icmpv6,
        length: 0,
        data: &[0x05, 0x02, 0x00, 0x00, 0x01, 0x00],
    };
    const TEXT: &str = "IPv6 Extension Header next_header=58 length=0 len=6";
    prints(&header, TEXT);
    takes_writes(&header, 6);
}

// Compares the crate with the plain reader over these octets, over each shorter part of them from their start on, and
// over each copy of them in which one byte is damaged.
fn compare_damaged(packet: &[u8]) {
    holds_of(packet, packet.len() <= LONGEST);
    for len in 0..=packet.len() {
        compare(&packet[..len]);
    }
    for at in 0..packet.len() {
        for &value in DAMAGE {
            compare(&damaged(packet, at, value)[..packet.len()]);
        }
    }
}

#[test]
fn damaged_headers() {
    // A header of one unit, one of two, one of one unit with bytes behind it, and one that lacks two of its units.
    const ROWS: &[&[u8]] = &[
        &[0x3a, 0x00, 0x05, 0x02, 0x00, 0x00, 0x01, 0x00],
        &[0x06, 0x01, 1, 2, 3, 4, 5, 6, 7, 8, 9, 10, 11, 12, 13, 14],
        &[0x11, 0x00, 0x01, 0x04, 0, 0, 0, 0, 0xaa, 0xbb, 0xcc],
        &[0x06, 0x02, 0, 0, 0, 0, 0, 0],
    ];
    for &octets in ROWS {
        compare_damaged(octets);
    }
}

// What writing a header over so many of five octets of this kind leaves.
fn written(header: &Repr<'_>, fill: u8, len: usize) -> [u8; 5] {
    let mut octets = [fill; 5];
    header.emit(&mut Header::new_unchecked(&mut octets[..len]));
    octets
}

// Writes a header of TCP and length 1 over octets of any kind: over just two, and over three more, which stay.
fn check_written(header: &Repr<'_>) {
    for &fill in FILLERS {
        let mut plain = [fill; 5];
        header.emit_into(&mut plain);
        let texts = [written(header, fill, 2), written(header, fill, 5), plain];
        same_of(fill, texts, [[0x06, 0x01, fill, fill, fill]; 3]);
    }
}

#[test]
fn a_header_is_written_by_its_first_two_bytes() {
    let header = Repr {
        next_header: IpProtocol::Tcp,
        length: 1,
        data: &[],
    };
    same(header.header_len(), 2);
    check_written(&header);
}

#[test]
fn a_payload_is_lent_for_writing() {
    const WRITTEN: &[u8] = &[
        0x11, 0x01, 0xa5, 0xa5, 0xa5, 0xa5, 0xa5, 0xa5, 0xa5, 0xa5, 0xa5, 0xa5, 0xa5, 0xa5, 0xa5,
        0x2a,
    ];
    let mut longer = [0xa5; 16];
    let mut header = Header::new_unchecked(longer.as_mut_slice());
    header.set_next_header(IpProtocol::Udp);
    header.set_header_len(1);
    header.payload_mut()[13] = 0x2a;
    same(header.next_header(), IpProtocol::Udp);
    same(header.header_len(), 1);
    same(longer.as_slice(), WRITTEN);
}
