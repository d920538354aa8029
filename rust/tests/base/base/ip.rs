// Made from crates/tests_base/src/base/ip.rt by rust/erase.
use crate::testing::{prints, same};
use control_wire::IpProtocol;

#[test]
fn protocols_and_their_numbers() {
    const ROWS: &[(IpProtocol, u8)] = &[
        (IpProtocol::HopByHop, 0),
        (IpProtocol::Icmp, 1),
        (IpProtocol::Igmp, 2),
        (IpProtocol::Tcp, 6),
        (IpProtocol::Udp, 17),
        (IpProtocol::Ipv6Route, 43),
        (IpProtocol::Ipv6Frag, 44),
        (IpProtocol::IpSecEsp, 50),
        (IpProtocol::IpSecAh, 51),
        (IpProtocol::Icmpv6, 58),
        (IpProtocol::Ipv6NoNxt, 59),
        (IpProtocol::Ipv6Opts, 60),
        (IpProtocol::Unknown(3), 3),
        (IpProtocol::Unknown(255), 255),
    ];
    for &(protocol, number) in ROWS {
        same(u8::from(protocol), number);
        same(IpProtocol::from(number), protocol);
    }
}

#[test]
fn order_of_protocols() {
    same(IpProtocol::HopByHop < IpProtocol::Icmp, true);
    same(IpProtocol::Ipv6Opts < IpProtocol::Unknown(3), true);
    same(IpProtocol::Unknown(3) < IpProtocol::Unknown(4), true);
}

#[test]
fn protocols_by_their_names() {
    const ROWS: &[(u8, &str)] = &[
        (0, "Hop-by-Hop"),
        (1, "ICMP"),
        (2, "IGMP"),
        (6, "TCP"),
        (17, "UDP"),
        (43, "IPv6-Route"),
        (44, "IPv6-Frag"),
        (50, "IPsec-ESP"),
        (51, "IPsec-AH"),
        (58, "ICMPv6"),
        (59, "IPv6-NoNxt"),
        (60, "IPv6-Opts"),
        (3, "0x03"),
        (255, "0xff"),
    ];
    for &(number, text) in ROWS {
        prints(&IpProtocol::from(number), text);
    }
}
