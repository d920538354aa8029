// Made from crates/icmp_fields/src/protocol_names.rt by rust/erase.
//! The names of the protocols over IP, from IANA's registry, in lower case with underscores.

use control_wire::IpProtocol;

/// The name of a protocol, also of one that is kept as [`IpProtocol::Unknown`]; None where it has none here.
pub fn protocol_name(protocol: IpProtocol) -> Option<&'static str> {
    match u8::from(protocol) {
        0 => Some("hopopt"),
        1 => Some("icmp"),
        2 => Some("igmp"),
        4 => Some("ipv4"),
        6 => Some("tcp"),
        17 => Some("udp"),
        41 => Some("ipv6"),
        43 => Some("ipv6_route"),
        44 => Some("ipv6_frag"),
        46 => Some("rsvp"),
        47 => Some("gre"),
        50 => Some("esp"),
        51 => Some("ah"),
        58 => Some("ipv6_icmp"),
        59 => Some("ipv6_nonxt"),
        60 => Some("ipv6_opts"),
        88 => Some("eigrp"),
        89 => Some("ospfigp"),
        103 => Some("pim"),
        112 => Some("vrrp"),
        115 => Some("l2tp"),
        132 => Some("sctp"),
        _ => None,
    }
}
