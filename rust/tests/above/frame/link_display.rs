// Made from crates/tests_above/src/frame/link_display.rt by rust/erase.
use crate::testing::prints;
use control_wire::frames::link::{Frame, Link, Network, Refusal};

#[test]
fn links_by_their_names() {
    let rows = [
        (Link::Null, "NULL"),
        (Link::Ethernet, "ETHERNET"),
        (Link::Ppp, "PPP"),
        (Link::PppEther, "PPP_ETHER"),
        (Link::Raw, "RAW"),
        (Link::LinuxSll, "LINUX_SLL"),
        (Link::LinuxSll2, "LINUX_SLL2"),
        (Link::CHdlc, "C_HDLC"),
        (Link::FrameRelay, "FRELAY"),
        (Link::Ipnet, "IPNET"),
        (Link::Nflog, "NFLOG"),
        (Link::Ipoib, "IPOIB"),
    ];
    for (link, text) in rows {
        prints(&link, text);
    }
}

#[test]
fn frames_in_a_line() {
    let rows = [
        (Network::Ipv4, "IPv4 vlans=2 len=3"),
        (Network::Ipv6, "IPv6 vlans=2 len=3"),
        (Network::Other(0x0806), "2054 vlans=2 len=3"),
    ];
    for (network, text) in rows {
        let frame = Frame {
            network,
            tags: &[0x81, 0, 0, 1, 0x81, 0, 0, 2],
            payload: &[1, 2, 3],
        };
        prints(&frame, text);
    }
}

#[test]
fn refusals_in_words() {
    let rows = [
        (
            Refusal::Short,
            "fewer bytes than the header of the link has",
        ),
        (Refusal::Tag, "a VLAN tag is cut short"),
        (Refusal::Protocol, "the PPP protocol is cut short"),
        (Refusal::SessionVersion(2), "PPPoE version 2 is not read"),
        (Refusal::SessionType(0), "PPPoE type 0 is not read"),
        (Refusal::SessionCode(0xa7), "PPPoE code 167 is not read"),
        (
            Refusal::FrameRelayAddress,
            "the frame relay address has the wrong length",
        ),
        (
            Refusal::FrameRelayControl(0xaf),
            "frame relay control 175 is not read",
        ),
        (Refusal::NflogVersion(1), "NFLOG version 1 is not read"),
        (Refusal::NflogLen(3), "NFLOG attribute length 3 is below 4"),
    ];
    for (refusal, text) in rows {
        prints(&refusal, text);
    }
}
