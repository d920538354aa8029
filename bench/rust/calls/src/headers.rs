//! Headers of IPv4 with options, messages of ICMPv4 and of ICMPv6 beside echoes and errors, packets of ARP, headers of
//! Ethernet and of fragments, and the parts of payloads.

use crate::measure::{iterates, prints, reads, writes};
use crate::random::{Random, many};
use control_wire::headers::icmpv4::{AddressMask, ExtendedEchoRequest, Message, Timestamp};
use control_wire::headers::{Fragments, Header, Options, ROUTER_ALERT};
use control_wire::headers::{arp, ethernet, icmpv6, ipv6_fragment};
use control_wire::{IpProtocol, Ipv4Address, Ipv6Address};

/// The addresses of the packets of ICMPv6.
const SOURCE: Ipv6Address = Ipv6Address::new(0x2001, 0xdb8, 1, 0, 0, 0, 0, 7);

const DESTINATION: Ipv6Address = Ipv6Address::new(0x2001, 0xdb8, 1, 0, 0, 0, 0, 1);

/// A message of each of some kinds in turn.
fn message(random: &mut Random, place: usize) -> Message<'static> {
    let (ident, seq_no) = (random.u16(), random.u16());
    match place % 4 {
        0 => Message::Timestamp(Timestamp {
            ident,
            seq_no,
            originate: random.u32(),
            receive: random.u32(),
            transmit: random.u32(),
        }),
        1 => Message::AddressMaskReply(AddressMask {
            ident,
            seq_no,
            mask: random.ipv4(),
        }),
        2 => Message::RouterSolicitation,
        _ => Message::ExtendedEchoRequest(ExtendedEchoRequest {
            ident,
            seq_no: random.octet(),
            local: random.is_even(),
            data: random.leaked(20),
        }),
    }
}

/// A message of ICMPv6 of each kind in turn.
fn icmpv6_message(random: &mut Random, place: usize) -> icmpv6::Message<'static> {
    let (ident, seq_no) = (random.u16(), random.octet());
    let node = icmpv6::NodeInformation {
        code: random.octet(),
        qtype: random.u16(),
        flags: random.u16(),
        nonce: random.next(),
        data: random.leaked(place),
    };
    match place % 4 {
        0 => icmpv6::Message::NodeInformationQuery(node),
        1 => icmpv6::Message::NodeInformationReply(node),
        2 => icmpv6::Message::ExtendedEchoRequest(icmpv6::ExtendedEchoRequest {
            ident,
            seq_no,
            local: random.is_even(),
            data: random.leaked(20),
        }),
        _ => icmpv6::Message::ExtendedEchoReply(icmpv6::ExtendedEchoReply {
            code: random.octet() % 5,
            ident,
            seq_no,
            state: random.octet() % 8,
            active: random.is_even(),
            ipv4: random.is_even(),
            ipv6: random.is_even(),
        }),
    }
}

/// The cases of messages of ICMPv6.
fn icmpv6_cases() {
    let messages = many(63, icmpv6_message);
    writes(
        "headers_icmpv6_emit",
        &messages,
        icmpv6::Message::buffer_len,
        |message, out| message.emit_into(out, &SOURCE, &DESTINATION),
    );
    let octets: Vec<Vec<u8>> = messages
        .iter()
        .map(|message| {
            let mut octets = vec![0; message.buffer_len()];
            message.emit_into(&mut octets, &SOURCE, &DESTINATION);
            octets
        })
        .collect();
    reads("headers_icmpv6_parse", &octets, |octets| {
        icmpv6::Message::parse(octets, &SOURCE, &DESTINATION)
    });
}

/// The cases of packets of ARP.
fn arp_cases() {
    let packets = many(64, |random, place| arp::Repr {
        operation: (1 + place as u16 % 2).into(),
        source_hardware_addr: random.ethernet(),
        source_protocol_addr: random.ipv4(),
        target_hardware_addr: random.ethernet(),
        target_protocol_addr: random.ipv4(),
    });
    writes(
        "headers_arp_emit",
        &packets,
        arp::Repr::buffer_len,
        |packet, out| packet.emit_into(out),
    );
    let octets: Vec<[u8; 46]> = packets
        .iter()
        .map(|packet| {
            let mut octets = [0; 46];
            packet.emit_into(&mut octets);
            octets
        })
        .collect();
    reads("headers_arp_parse", &octets, |octets| {
        arp::Repr::parse(octets)
    });
    prints("headers_arp_display", &packets);
}

/// The cases of headers of Ethernet, and of hardware addresses of groups.
fn ethernet_cases() {
    let headers = many(65, |random, _| ethernet::Header {
        src_addr: random.ethernet(),
        dst_addr: random.ethernet(),
        ether_type: random.u16(),
    });
    writes(
        "headers_ethernet_emit",
        &headers,
        ethernet::Header::buffer_len,
        |header, out| header.emit_into(out),
    );
    let octets: Vec<[u8; 60]> = headers
        .iter()
        .map(|header| {
            let mut octets = [0; 60];
            header.emit_into(&mut octets);
            octets
        })
        .collect();
    reads("headers_ethernet_parse", &octets, |octets| {
        ethernet::Header::parse(octets)
    });
    prints("headers_ethernet_display", &headers);
    let groups: Vec<Ipv4Address> = many(66, |random, _| random.ipv4());
    reads("headers_multicast_v4", &groups, |group| {
        ethernet::multicast_v4(*group)
    });
    let groups: Vec<Ipv6Address> = many(67, |random, _| random.group());
    reads("headers_multicast_v6", &groups, |group| {
        ethernet::multicast_v6(*group)
    });
}

/// The cases of fragment headers, and of parts of payloads.
fn fragment_cases() {
    let headers = many(68, |random, _| ipv6_fragment::Header {
        next_header: random.octet().into(),
        frag_offset: random.u16() % 8192,
        more_frags: random.is_even(),
        ident: random.u32(),
    });
    writes(
        "headers_ipv6_fragment_emit",
        &headers,
        ipv6_fragment::Header::buffer_len,
        |header, out| header.emit_into(out),
    );
    let octets: Vec<[u8; 48]> = headers
        .iter()
        .map(|header| {
            let mut octets = [0; 48];
            header.emit_into(&mut octets);
            octets
        })
        .collect();
    reads("headers_ipv6_fragment_parse", &octets, |octets| {
        ipv6_fragment::Header::parse(octets)
    });
    prints("headers_ipv6_fragment_display", &headers);
    let payloads = many(69, |random, place| random.octets(500 * place));
    iterates("headers_fragments", &payloads, |payload| {
        Fragments::new(payload, 1_452).unwrap()
    });
}

/// The cases of this group.
pub fn cases() {
    let headers: Vec<Header<'_>> = many(61, |random, place| Header {
        service: random.octet(),
        ident: random.u16(),
        dont_frag: true,
        more_frags: false,
        frag_offset: 0,
        hop_limit: random.octet(),
        protocol: IpProtocol::Igmp,
        src_addr: random.ipv4(),
        dst_addr: random.ipv4(),
        options: if place % 2 == 0 { &ROUTER_ALERT } else { &[] },
        payload_len: 8,
    });
    writes(
        "headers_emit",
        &headers,
        Header::buffer_len,
        |header, out| header.emit_into(out),
    );
    let octets: Vec<Vec<u8>> = headers
        .iter()
        .map(|header| {
            let mut octets = vec![0; header.buffer_len() + 8];
            header.emit_into(&mut octets);
            octets
        })
        .collect();
    reads("headers_parse", &octets, |octets| Header::parse(octets));
    iterates("headers_options", &headers, |header| {
        Options::new(header.options)
    });
    let messages = many(62, message);
    writes(
        "headers_icmpv4_emit",
        &messages,
        Message::buffer_len,
        |message, out| message.emit_into(out),
    );
    let octets: Vec<Vec<u8>> = messages
        .iter()
        .map(|message| {
            let mut octets = vec![0; message.buffer_len()];
            message.emit_into(&mut octets);
            octets
        })
        .collect();
    reads("headers_icmpv4_parse", &octets, |octets| {
        Message::parse(octets)
    });
    icmpv6_cases();
    prints("headers_display", &headers);
    arp_cases();
    ethernet_cases();
    fragment_cases();
}
