// Made from crates/tests_above/src/frame/datagram_display.rt by rust/erase.
use crate::testing::prints;
use control_wire::frames::datagram::{Addresses, Captured, Datagram, Extent, Head, Refusal};
use control_wire::{IpProtocol, Ipv4Address, Ipv6Address};

fn over_v4() -> Addresses {
    Addresses::V4(
        Ipv4Address::new(192, 0, 2, 1),
        Ipv4Address::new(192, 0, 2, 2),
    )
}

fn over_v6() -> Addresses {
    Addresses::V6(
        Ipv6Address::new(0xfe80, 0, 0, 0, 0, 0, 0, 1),
        Ipv6Address::new(0xff02, 0, 0, 0, 0, 0, 0, 0x16),
    )
}

#[test]
fn datagrams_in_a_line() {
    let datagram = Datagram {
        addresses: over_v4(),
        protocol: IpProtocol::Udp,
        hop_limit: 64,
        hop_by_hop: None,
        payload: &[1, 2, 3],
    };
    let rows = [
        (
            Extent::Whole,
            "192.0.2.1 > 192.0.2.2 protocol=UDP hop_limit=64 len=3 whole",
        ),
        (
            Extent::Cut { missing: 9 },
            "192.0.2.1 > 192.0.2.2 protocol=UDP hop_limit=64 len=3 cut missing=9",
        ),
        (
            Extent::Unstated,
            "192.0.2.1 > 192.0.2.2 protocol=UDP hop_limit=64 len=3 of no stated length",
        ),
    ];
    for (extent, text) in rows {
        prints(&Captured { datagram, extent }, text);
    }
}

#[test]
fn refusals_in_words() {
    let fragment = Head {
        addresses: over_v4(),
        protocol: IpProtocol::Udp,
        ident: Some(7),
        frag_offset: 1480,
        more_frags: true,
    };
    let cut = Head {
        addresses: over_v6(),
        protocol: IpProtocol::HopByHop,
        ident: None,
        frag_offset: 0,
        more_frags: false,
    };
    let rows = [
        (Refusal::Short, "fewer bytes than the fixed header has"),
        (Refusal::Version(5), "version 5 is not read"),
        (Refusal::HeaderLen(16), "a header length of 16 is below 20"),
        (
            Refusal::TotalLen(19),
            "a total length of 19 is below that of the header",
        ),
        (
            Refusal::Cut(cut),
            "cut short, fe80::1 > ff02::16 protocol=Hop-by-Hop",
        ),
        (Refusal::Jumbogram, "a malformed jumbogram"),
        (
            Refusal::Extension(IpProtocol::Ipv6Opts),
            "the extension header IPv6-Opts is cut short",
        ),
        (
            Refusal::Fragment(fragment),
            "a fragment, 192.0.2.1 > 192.0.2.2 protocol=UDP ident=7 frag_offset=1480 more_frags=true",
        ),
    ];
    for (refusal, text) in rows {
        prints(&refusal, text);
    }
}
