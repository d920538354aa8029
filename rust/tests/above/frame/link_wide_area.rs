// Made from crates/tests_above/src/frame/link_wide_area.rt by rust/erase.
use super::link::{Refused, Row, check_damaged, check_frames, check_refusals};
use control_wire::frames::link::{Link, Network, Refusal};

// Frames of which tshark 4.0.17 names the same networks, but for the one with a VLAN tag, which it does not read.
const ROWS: &[Row] = &[
    (
        Link::CHdlc,
        &[0x0f, 0x00, 0x08, 0x00, 0x45],
        Network::Ipv4,
        &[],
        &[0x45],
    ),
    (
        Link::CHdlc,
        &[0x8f, 0x00, 0x86, 0xdd, 0x60],
        Network::Ipv6,
        &[],
        &[0x60],
    ),
    // A keepalive of SLARP.
    (
        Link::CHdlc,
        &[
            0x8f, 0x00, 0x80, 0x35, 0, 0, 0, 2, 0, 0, 0, 1, 0, 0, 0, 0, 0xff, 0xff, 0, 0,
        ],
        Network::Other(0x8035),
        &[],
        &[0, 0, 0, 2, 0, 0, 0, 1, 0, 0, 0, 0, 0xff, 0xff, 0, 0],
    ),
    (
        Link::CHdlc,
        &[0x0f, 0x00, 0x81, 0x00, 0x00, 0x07, 0x08, 0x00, 0x45],
        Network::Ipv4,
        &[7],
        &[0x45],
    ),
    // Addresses of two, three and four bytes, with and without a pad.
    (
        Link::FrameRelay,
        &[0x18, 0x41, 0x03, 0xcc, 0x45],
        Network::Ipv4,
        &[],
        &[0x45],
    ),
    (
        Link::FrameRelay,
        &[0x18, 0x40, 0x01, 0x03, 0x8e, 0x60],
        Network::Ipv6,
        &[],
        &[0x60],
    ),
    (
        Link::FrameRelay,
        &[0x18, 0x40, 0x00, 0x01, 0x03, 0x00, 0xcc, 0x45],
        Network::Ipv4,
        &[],
        &[0x45],
    ),
    // SNAP of an EtherType, with and without a pad; and of bridged Ethernet, which is another network.
    (
        Link::FrameRelay,
        &[0x18, 0x41, 0x03, 0x00, 0x80, 0, 0, 0, 0x08, 0x00, 0x45],
        Network::Ipv4,
        &[],
        &[0x45],
    ),
    (
        Link::FrameRelay,
        &[0x18, 0x41, 0x03, 0x80, 0, 0, 0, 0x86, 0xdd, 0x60],
        Network::Ipv6,
        &[],
        &[0x60],
    ),
    (
        Link::FrameRelay,
        &[
            0x18, 0x41, 0x03, 0x00, 0x80, 0x00, 0x80, 0xc2, 0x00, 0x07, 0xff,
        ],
        Network::Other(0x80),
        &[],
        &[0x00, 0x80, 0xc2, 0x00, 0x07, 0xff],
    ),
    // A message of Q.933.
    (
        Link::FrameRelay,
        &[0x00, 0x01, 0x03, 0x08, 0x75, 0x51],
        Network::Other(8),
        &[],
        &[0x75, 0x51],
    ),
];

#[test]
fn frames_of_wide_area_links() {
    check_frames(ROWS);
    check_damaged(ROWS);
}

#[test]
fn refusals_of_wide_area_links() {
    const REFUSED: &[Refused] = &[
        (Link::CHdlc, &[0x0f, 0x00, 0x08], Some(Refusal::Short)),
        (
            Link::CHdlc,
            &[0x0f, 0x00, 0x81, 0x00, 0x00, 0x07, 0x08],
            Some(Refusal::Tag),
        ),
        (Link::FrameRelay, &[], Some(Refusal::Short)),
        (Link::FrameRelay, &[0x18], Some(Refusal::Short)),
        (Link::FrameRelay, &[0x18, 0x40, 0x00], Some(Refusal::Short)),
        (
            Link::FrameRelay,
            &[0x19, 0x41, 0x03, 0xcc],
            Some(Refusal::FrameRelayAddress),
        ),
        (
            Link::FrameRelay,
            &[0x18, 0x40, 0x00, 0x00, 0x01, 0x03, 0xcc],
            Some(Refusal::FrameRelayAddress),
        ),
        (Link::FrameRelay, &[0x18, 0x41], Some(Refusal::Short)),
        // An EtherType after the address, as Cisco's own encapsulation has it.
        (
            Link::FrameRelay,
            &[0x18, 0x41, 0x08, 0x00, 0x45],
            Some(Refusal::FrameRelayControl(8)),
        ),
        (Link::FrameRelay, &[0x18, 0x41, 0x03], Some(Refusal::Short)),
        (
            Link::FrameRelay,
            &[0x18, 0x41, 0x03, 0x00],
            Some(Refusal::Short),
        ),
        (Link::FrameRelay, &[0x18, 0x41, 0x03, 0xcc], None),
        (
            Link::FrameRelay,
            &[0x18, 0x41, 0x03, 0x80, 0, 0, 0, 0x08],
            Some(Refusal::Short),
        ),
        (
            Link::FrameRelay,
            &[0x18, 0x41, 0x03, 0x80, 0, 0, 0, 0x81, 0x00, 0x00],
            Some(Refusal::Tag),
        ),
    ];
    check_refusals(REFUSED);
}
