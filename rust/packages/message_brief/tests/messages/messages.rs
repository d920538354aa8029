// Made from crates/tests_message_brief/src/messages.rt by rust/erase.
//! Messages of real captures, and the lines that say what tshark does of them.

use crate::testing::{holds_of, same_of};
use control_wire::frames::Addresses;
use control_wire::{Ipv4Address, Ipv6Address};
use message_brief::{show_brief, show_cut_brief};
use message_fields::{Message, Service};
#[allow(unused_imports)]
use rattle_std::prelude::*;

// What octets are: of UDP from its header on; of TCP a header of 20 octets, the length of a message, and the message.
#[derive(Debug, Clone, Copy)]
enum Kind {
    Icmp4,
    Igmp,
    Icmp6,
    Udp(Service),
    Tcp,
}

// A line says nothing of addresses.
fn message_of(kind: Kind, octets: &[u8]) -> Message<'_> {
    let address = Ipv4Address::new(192, 0, 2, 1);
    let both = Addresses::V4(address, address);
    let other = Ipv6Address::from_octets([0; 16]);
    match kind {
        Kind::Icmp4 => Message::Icmp4(octets),
        Kind::Igmp => Message::Igmp(octets),
        Kind::Icmp6 => Message::Icmp6(other, other, octets),
        Kind::Udp(service) => Message::Udp(service, both, octets),
        Kind::Tcp => Message::Tcp(both, octets, octets.get(22..).unwrap_or(&[])),
    }
}

// Ends the test unless the message prints this line.
fn says(kind: Kind, octets: &[u8], line: &str) {
    let mut output = Vec::new();
    let result = show_brief(&mut output, &message_of(kind, octets));
    holds_of(line, result.is_ok());
    same_of(line, output.as_slice(), line.as_bytes());
}

// Ends the test unless a message of which bytes are missing prints this line.
fn says_of_cut(kind: Kind, octets: &[u8], line: &str) {
    let mut output = Vec::new();
    let result = show_cut_brief(&mut output, &message_of(kind, octets));
    holds_of(line, result.is_ok());
    same_of(line, output.as_slice(), line.as_bytes());
}

type Row = (Kind, &'static [u8], &'static str);

// Of tests/captures/real; the header of TCP is made.
const ROWS: &[Row] = &[
    // names.pcap, packet 37.
    (
        Kind::Udp(Service::Dns),
        b"\xaa9\x005\0M~\x84\x0b\xb5\x01\x20\0\x01\0\0\0\0\0\x01\x0fwhite\x20space.dot\x07example\x04test\
            \0\0\x10\0\x01\0\0)\x04\xd0\0\0\0\0\0\x0c\0\x0a\0\x08a\xae\xa284Y+8",
        " 2997? TXT white\\032space\\.dot.example.test.",
    ),
    // The same over TCP.
    (
        Kind::Tcp,
        b"\x9c@\x005\0\0\0\x01\0\0\0\x01P\x18\x01\0\0\0\0\0\0E\x0b\xb5\x01\x20\0\x01\0\0\0\0\0\x01\x0fwhite\x20space\
            .dot\x07example\x04test\0\0\x10\0\x01\0\0)\x04\xd0\0\0\0\0\0\x0c\0\x0a\0\x08a\xae\xa284Y+8",
        " 2997? TXT white\\032space\\.dot.example.test.",
    ),
    // names.pcap, packet 34.
    (
        Kind::Udp(Service::Dns),
        b"\x005\xb8f\0u6W\x88\xe3\x85\x80\0\x01\0\x03\0\0\0\x01\x05alias\x07example\x04test\0\0\x01\0\x01\
            \xc0\x0c\0\x05\0\x01\0\0\0<\0\x12\x03www\x07example\x04test\0\xc00\0\x01\0\x01\0\0\x01,\0\x04\
            \xc0\0\x02\x08\xc00\0\x01\0\x01\0\0\x01,\0\x04\xc0\0\x02\x09\0\0)\x04\xd0\0\0\0\0\0\0",
        " 35043 NOERROR A alias.example.test. = CNAME www.example.test., +2",
    ),
    // names.pcap, packet 42.
    (
        Kind::Udp(Service::Dns),
        b"\x005\xc9\x11\x008\xc2\xf4\xa0\x15\x81\x83\0\x01\0\0\0\0\0\x01\x06absent\x07example\x04test\0\0\
            \x01\0\x01\0\0)\x04\xd0\0\0\0\0\0\0",
        " 40981 NXDOMAIN A absent.example.test.",
    ),
    // multicast-names.pcap, packet 1.
    (
        Kind::Udp(Service::Mdns),
        b"\x14\xe9\x14\xe9\0*\xce\xb9\0\0\0\0\0\x02\0\0\0\0\0\0\x04host\x05local\0\0\x01\x80\x01\xc0\x0c\0\
            \x1c\0\x01",
        " 0? A host.local., +1",
    ),
    // multicast-names.pcap, packet 2.
    (
        Kind::Udp(Service::Mdns),
        b"\x14\xe9\x14\xe9\0\x9a\xc1:\0\0\x84\0\0\0\0\x04\0\0\0\x01\x04host\x05local\0\0\x01\x80\x01\0\0\0\
            x\0\x04\xc0\0\x02\x07\xc0\x0c\0\x1c\x80\x01\0\0\0x\0\x10\xfe\x80\0\0\0\0\0\0\0\0\0\0\0\0\0\x07\
            \x05_http\x04_tcp\x05local\0\0\x0c\0\x01\0\0\x11\x94\0\x07\x04blog\xc0B\x04blog\xc0B\0!\x80\x01\
            \0\0\0x\0\x08\0\0\0\0\0P\xc0\x0c\xc0\x0c\0/\x80\x01\0\0\0x\0\x08\xc0\x0c\0\x04@\0\0\x08",
        " 0 NOERROR A host.local. = 192.0.2.7, +3",
    ),
    // multicast-names.pcap, packet 4.
    (
        Kind::Udp(Service::Mdns),
        b"\x14\xe9\x14\xe9\0\x11\xae\xc7\0\0\x84\0\0\0\0\x04\0",
        " ...",
    ),
    // netbios-names.pcap, packet 1.
    (
        Kind::Udp(Service::Nbns),
        b"\0\x89\0\x89\0L\xdc\xc8\x02\xb4)\x10\0\x01\0\0\0\0\0\x01\x20EDFHCNEOEFEJEHEIECEPFFFCCACACACA\0\0\
            \x20\0\x01\xc0\x0c\0\x20\0\x01\0\0\0\0\0\x06`\0\xc0\0\x02\x09",
        " 692? REGISTRATION NB CW-NEIGHBOUR<20>",
    ),
    // netbios-names.pcap, packet 26.
    (
        Kind::Udp(Service::Nbns),
        b"\0\x89\xeb\x83\0FY\x80\x0bB\x85\x80\0\0\0\x01\0\0\0\0\x20EDFHCNEOEFEJEHEIECEPFFFCCACACAAA\0\0\
            \x20\0\x01\0\x03\xf4\x80\0\x06`\0\xc0\0\x02\x09",
        " 2882 NOERROR NB CW-NEIGHBOUR<00> = unique h-node 192.0.2.9",
    ),
    // lease.pcap, packet 9.
    (
        Kind::Udp(Service::Dhcp),
        b"\0D\0C\x014$t\x01\x01\x06\0'\x80\xbd\x05\0\0\0\0\0\0\0\0\0\0\0\0\0\0\0\0\0\0\0\0\x02\0\0\0\0\x07\
            \0\0\0\0\0\0\0\0\0\0\0\0\0\0\0\0\0\0\0\0\0\0\0\0\0\0\0\0\0\0\0\0\0\0\0\0\0\0\0\0\0\0\0\0\0\0\0\0\
            \0\0\0\0\0\0\0\0\0\0\0\0\0\0\0\0\0\0\0\0\0\0\0\0\0\0\0\0\0\0\0\0\0\0\0\0\0\0\0\0\0\0\0\0\0\0\0\0\
            \0\0\0\0\0\0\0\0\0\0\0\0\0\0\0\0\0\0\0\0\0\0\0\0\0\0\0\0\0\0\0\0\0\0\0\0\0\0\0\0\0\0\0\0\0\0\0\0\
            \0\0\0\0\0\0\0\0\0\0\0\0\0\0\0\0\0\0\0\0\0\0\0\0\0\0\0\0\0\0\0\0\0\0\0\0\0\0\0\0\0\0\0\0\0\0\0\0\
            \0\0\0\0\0\0\0\0\0\0c\x82Sc5\x01\x032\x04\xc0\0\x0226\x04\xc0\0\x02\x019\x02\x02@7\x07\x01\x03\
            \x06\x0c\x0f\x1c*\x0c\x04host<\x0cudhcp\x201.35.0=\x07\x01\x02\0\0\0\0\x07\xff\0\0",
        " request 662748421 02:00:00:00:00:07 ? 192.0.2.50 from 192.0.2.1",
    ),
    // lease.pcap, packet 10.
    (
        Kind::Udp(Service::Dhcp),
        b"\0C\0D\x01<\x90O\x02\x01\x06\0'\x80\xbd\x05\0\0\0\0\0\0\0\0\xc0\0\x022\xc0\0\x02\x01\0\0\0\0\x02\
            \0\0\0\0\x07\0\0\0\0\0\0\0\0\0\0\0\0\0\0\0\0\0\0\0\0\0\0\0\0\0\0\0\0\0\0\0\0\0\0\0\0\0\0\0\0\0\0\
            \0\0\0\0\0\0\0\0\0\0\0\0\0\0\0\0\0\0\0\0\0\0\0\0\0\0\0\0\0\0\0\0\0\0\0\0\0\0\0\0\0\0\0\0\0\0\0\0\
            \0\0\0\0\0\0\0\0\0\0\0\0\0\0\0\0\0\0\0\0\0\0\0\0\0\0\0\0\0\0\0\0\0\0\0\0\0\0\0\0\0\0\0\0\0\0\0\0\
            \0\0\0\0\0\0\0\0\0\0\0\0\0\0\0\0\0\0\0\0\0\0\0\0\0\0\0\0\0\0\0\0\0\0\0\0\0\0\0\0\0\0\0\0\0\0\0\0\
            \0\0\0\0\0\0\0\0\0\0\0\0\0\0\0\0c\x82Sc5\x01\x056\x04\xc0\0\x02\x013\x04\0\0\x0e\x10:\x04\0\0\
            \x07\x08;\x04\0\0\x0cN\x01\x04\xff\xff\xff\0\x1c\x04\xc0\0\x02\xff\x0c\x04host*\x04\xc0\0\x02\
            \x03\x06\x08\xc0\0\x02\x01\xc0\0\x02\x02\x03\x04\xc0\0\x02\x01\xff",
        " ack 662748421 02:00:00:00:00:07 = 192.0.2.50 from 192.0.2.1 lease=3600s",
    ),
    // mixed.pcap, packet 1.
    (
        Kind::Icmp4,
        b"\x08\0\x8az\x1a\x09\0\x01\x20\x9c\x09k\0\0\0\0\xdc#\x01\0\0\0\0\0\x10\x11\x12\x13\x14\x15\x16\
            \x17",
        " echo_request 6665 1 len=24",
    ),
    // errors.pcap, packet 34.
    (
        Kind::Icmp4,
        b"\x0b\0\xe1\xa1\0\0\0\0E\0\0<{R\0\0\x01\x11Q\xf7\xc0\0\x022\xc63d\x02\x81G\x82\x9a\0(\x1aO@ABCDEF\
            GHIJKLMNOPQRSTUVWXYZ[\\]^_",
        " time_exceeded time_to_live_exceeded_in_transit quoted=192.0.2.50:33095>198.51.100.2:33434 udp",
    ),
    // errors.pcap, packet 13.
    (
        Kind::Icmp4,
        b"\x05\x018\xf5\xc0\0\x02\x09E\0\0T5\xa3@\0?\x01\x07\xd2\xc0\0\x022\xcb\0q\x01\x08\0'j\x14\xc6\0\
            \x01\x0f\x9c\x09k\0\0\0\0\xd6\xf4\x0d\0\0\0\0\0\x10\x11\x12\x13\x14\x15\x16\x17\x18\x19\x1a\x1b\
            \x1c\x1d\x1e\x1f\x20!\"#$%&'()*+,-./01234567",
        " redirect host gateway=192.0.2.9 quoted=192.0.2.50>203.0.113.1 icmp",
    ),
    // errors.pcap, packet 27.
    (
        Kind::Icmp6,
        b"\x01\0\xac.\0\0\0\0`\x0a\\\x9a\0@:@\x20\x01\x0d\xb8\0\x01\0\0\0\0\0\0\0\0\0\x07\x20\x01\x0d\xb8\
            \0\x03\0\0\0\x0e\0\0\0\0\0\x01\x80\0\xb5\xc2\x16\x08\0\x01\x14\x9c\x09k\0\0\0\0{S\0\0\0\0\0\0\
            \x10\x11\x12\x13\x14\x15\x16\x17\x18\x19\x1a\x1b\x1c\x1d\x1e\x1f\x20!\"#$%&'()*+,-./01234567",
        " destination_unreachable no_route_to_destination quoted=2001:db8:1::7>2001:db8:3:0:e::1 ipv6_icmp",
    ),
    // errors.pcap, packet 6.
    (
        Kind::Icmp6,
        b"\x88\0\xba\x90`\0\0\0\x20\x01\x0d\xb8\0\x01\0\0\0\0\0\0\0\0\0\x07\x02\x01\x02\0\0\0\0\x07",
        " neighbor_advertisement 2001:db8:1::7 = 02:00:00:00:00:07",
    ),
    // errors.pcap, packet 3.
    (
        Kind::Icmp6,
        b"\x89\0c\x13\0\0\0\0\xfe\x80\0\0\0\0\0\0\0\0\0\xff\xfe\0\0\x09\x20\x01\x0d\xb8\0\x03\0\0\0\0\0\0\
            \0\0\0\x01\x04\x0e\0\0\0\0\0\0`\0\x1e{\0@:@\x20\x01\x0d\xb8\0\x01\0\0\0\0\0\0\0\0\0\x07\x20\x01\
            \x0d\xb8\0\x03\0\0\0\0\0\0\0\0\0\x01\x80\0\xc4\x9a\x14\xa3\0\x01\x0e\x9c\x09k\0\0\0\0h\xee\x0b\0\
            \0\0\0\0\x10\x11\x12\x13\x14\x15\x16\x17\x18\x19\x1a\x1b\x1c\x1d\x1e\x1f\x20!\"#$%&'()*+,-./0123\
            4567",
        " redirect 2001:db8:3::1 via fe80::ff:fe00:9",
    ),
    // errors.pcap, packet 28.
    (
        Kind::Icmp6,
        b"\x86\0x\x1c@\x08\x04\xb0\0\0\0\0\0\0\0\0\x03\x04@\xc0\0\0\x0e\x10\0\0\x0e\x10\0\0\0\0\x20\x01\
            \x0d\xb8\0\x01\0\0\0\0\0\0\0\0\0\0\x05\x01\0\0\0\0\x05\xdc\x01\x01\x02\0\0\0\0\x01\x19\x03\0\0\0\
            \0\x0e\x10\xfe\x80\0\0\0\0\0\0\0\0\0\xff\xfe\0\0\x01",
        " router_advertisement 1200s 2001:db8:1::/64",
    ),
    // groups.pcap, packet 27.
    (
        Kind::Igmp,
        b"\"\0\xe9\xf9\0\0\0\x01\x03\0\0\0\xef\x01\x02\x03",
        " membership_report_v3 -239.1.2.3",
    ),
    // groups.pcap, packet 34.
    (
        Kind::Icmp6,
        b"\x82\0W\x96'\x10\0\0\0\0\0\0\0\0\0\0\0\0\0\0\0\0\0\0\x02}\0\0",
        " multicast_listener_query_v2 ::",
    ),
    // lease.pcap, packet 4.
    (
        Kind::Icmp6,
        b"\x8f\0c\xb6\0\0\0\x05\x04\0\0\0\xff\x02\0\0\0\0\0\0\0\0\0\0\0\0\0j\x04\0\0\0\xff\x02\0\0\0\0\0\0\
            \0\0\0\x01\xff\0\0\0\x04\0\0\0\xff\x02\0\0\0\0\0\0\0\0\0\x01\xff\0\0\x01\x04\0\0\0\xff\x05\0\0\0\
            \0\0\0\0\0\0\0\0\0\0\x02\x04\0\0\0\xff\x02\0\0\0\0\0\0\0\0\0\0\0\0\0\x02",
        " version_2_multicast_listener_report +ff02::6a +ff02::1:ff00:0 +ff02::1:ff00:1, +2",
    ),
];

#[test]
fn messages_of_captures() {
    for &(kind, octets, line) in ROWS {
        says(kind, octets, line);
    }
}

// Quotes by the pictures of RFC 791, RFC 8200 and RFC 4884: of UDP behind destination options, whole, with ports behind
// the packet's own payload, of a later fragment, and with the end of the options where 16 words of 8 octets and the
// quote end, behind which an extension structure has an object; of IPv4, with ports behind the datagram's own payload,
// and of a total length that is too small for the header.
const QUOTES: &[Row] = &[
    (
        Kind::Icmp6,
        b"\x01\x04\0\0\0\0\0\0`\0\0\0\0\x10<@\x20\x01\x0d\xb8\0\0\0\0\0\0\0\0\0\0\0\x01\x20\x01\x0d\xb8\0\0\0\0\0\0\
            \0\0\0\0\0\x02\x11\0\x01\x04\0\0\0\0\xc3P\x82\x9b\0\x08\0\0",
        " destination_unreachable port_unreachable quoted=[2001:db8::1]:50000>[2001:db8::2]:33435 udp",
    ),
    (
        Kind::Icmp6,
        b"\x01\x04\0\0\0\0\0\0`\0\0\0\0\x0b<@\x20\x01\x0d\xb8\0\0\0\0\0\0\0\0\0\0\0\x01\x20\x01\x0d\xb8\0\0\0\0\0\0\
            \0\0\0\0\0\x02\x11\0\x01\x04\0\0\0\0\xc3P\x82\x9b\0\x08\0\0",
        " destination_unreachable port_unreachable quoted=2001:db8::1>2001:db8::2 udp",
    ),
    (
        Kind::Icmp6,
        b"\x01\x04\0\0\0\0\0\0`\0\0\0\0\x10,@\x20\x01\x0d\xb8\0\0\0\0\0\0\0\0\0\0\0\x01\x20\x01\x0d\xb8\0\0\0\0\0\0\
            \0\0\0\0\0\x02\x11\0\0\x08\0\0\0\x01\xc3P\x82\x9b\0\x08\0\0",
        " destination_unreachable port_unreachable quoted=2001:db8::1>2001:db8::2 ipv6_frag",
    ),
    (
        Kind::Icmp6,
        b"\x01\0\x44\x6a\x10\0\0\0`\0\0\0\0`<\xff\xfe\x80\0\0\0\0\0\0\0\0\0\0\0\0\0\x01\xfe\x80\0\0\0\0\0\0\
            \0\0\0\0\0\0\0\x02\x11\x0a\x01T\0\0\0\0\0\0\0\0\0\0\0\0\0\0\0\0\0\0\0\0\0\0\0\0\0\0\0\0\0\0\0\0\
            \0\0\0\0\0\0\0\0\0\0\0\0\0\0\0\0\0\0\0\0\0\0\0\0\0\0\0\0\0\0\0\0\0\0\0\0\0\0\0\0\0\0\0\0\0\0\0\0\
            \0\0\0\0\x20\0\x1a0\0\x08\x01\x01abcd",
        " destination_unreachable no_route_to_destination quoted=fe80::1>fe80::2 udp",
    ),
    (
        Kind::Icmp4,
        b"\x03\x03\0\0\0\0\0\0E\0\0\x17\0\0\0\0@\x11\0\0\xc0\0\x02\x01\xc0\0\x02\x02\xc3P\x82\x9b\0\x08\0\0",
        " destination_unreachable port_unreachable quoted=192.0.2.1>192.0.2.2 udp",
    ),
    (
        Kind::Icmp4,
        b"\x03\x03\0\0\0\0\0\0E\0\0\x13\0\0\0\0@\x11\0\0\xc0\0\x02\x01\xc0\0\x02\x02\xc3P\x82\x9b\0\x08\0\0",
        " destination_unreachable port_unreachable quoted=192.0.2.1:50000>192.0.2.2:33435 udp",
    ),
];

#[test]
fn protocol_and_ports_within_a_quoted_datagram() {
    for &(kind, octets, line) in QUOTES {
        says(kind, octets, line);
    }
}

// The ping of mixed.pcap, up to its identifier and up to its data; a response of which the first answer is torn, and an
// error whose quote is; a report that counts a record more than it has; a type without a name; the
// answer of netbios-names.pcap without its address, a query of listeners of another code, and the lease of lease.pcap
// whose time has three octets.
const CUT: &[Row] = &[
    (Kind::Icmp4, b"\x08\0\xe2\xdf\x1a\x09", " echo_request ..."),
    (
        Kind::Icmp4,
        b"\x08\0\xe2\xdf\x1a\x09\0\x01",
        " echo_request 6665 1 len=0",
    ),
    (
        Kind::Udp(Service::Dns),
        b"\x005\xc9\x11\0\x38\0\0\xa0\x15\x81\x83\0\x01\0\x02\0\0\0\0\x06absent\x07example\x04test\0\
        \0\x01\0\x01\xc0\x0c\0\x01",
        " 40981 NXDOMAIN A absent.example.test. ...",
    ),
    (
        Kind::Icmp6,
        b"\x02\0\0\0\0\0\x05\x14\x60",
        " packet_too_big mtu=1300 ...",
    ),
    (
        Kind::Igmp,
        b"\x22\0\0\0\0\0\0\x02\x05\0\0\x01\xef\x01\x02\x03\xc0\0\x02\x01",
        " membership_report_v3 allow_new_sources=239.1.2.3 ...",
    ),
    (Kind::Icmp4, b"\xc8\x01\0\0\0\0\0\0", " type_200 code=1"),
    (
        Kind::Udp(Service::Nbns),
        b"\0\x89\xeb\x83\0@\0\0\x0bB\x85\x80\0\0\0\x01\0\0\0\0\x20EDFHCNEOEFEJEHEIECEPFFFCCACACAAA\0\0\
            \x20\0\x01\0\x03\xf4\x80\0\0",
        " 2882 NOERROR NB CW-NEIGHBOUR<00> = -",
    ),
    (
        Kind::Icmp6,
        b"\x82\x01W\x95'\x10\0\0\0\0\0\0\0\0\0\0\0\0\0\0\0\0\0\0\x02}\0\0",
        " multicast_listener_query_v2 ::",
    ),
    (
        Kind::Udp(Service::Dhcp),
        b"\0C\0D\x01\x07\0\0\x02\x01\x06\0'\x80\xbd\x05\0\0\0\0\0\0\0\0\xc0\0\x022\xc0\0\x02\x01\0\0\0\0\x02\
            \0\0\0\0\x07\0\0\0\0\0\0\0\0\0\0\0\0\0\0\0\0\0\0\0\0\0\0\0\0\0\0\0\0\0\0\0\0\0\0\0\0\0\0\0\0\0\0\
            \0\0\0\0\0\0\0\0\0\0\0\0\0\0\0\0\0\0\0\0\0\0\0\0\0\0\0\0\0\0\0\0\0\0\0\0\0\0\0\0\0\0\0\0\0\0\0\0\
            \0\0\0\0\0\0\0\0\0\0\0\0\0\0\0\0\0\0\0\0\0\0\0\0\0\0\0\0\0\0\0\0\0\0\0\0\0\0\0\0\0\0\0\0\0\0\0\0\
            \0\0\0\0\0\0\0\0\0\0\0\0\0\0\0\0\0\0\0\0\0\0\0\0\0\0\0\0\0\0\0\0\0\0\0\0\0\0\0\0\0\0\0\0\0\0\0\0\
            \0\0\0\0\0\0\0\0\0\0\0\0\0\0\0\0c\x82Sc5\x01\x056\x04\xc0\0\x02\x013\x03\0\x0e\x10\xff",
        " ack 662748421 02:00:00:00:00:07 = 192.0.2.50 from 192.0.2.1 ...",
    ),
];

#[test]
fn messages_that_are_cut() {
    for &(kind, octets, line) in CUT {
        says(kind, octets, line);
    }
    let ping = b"\x08\0\xe2\xdf\x1a\x09\0\x01";
    says_of_cut(Kind::Icmp4, ping, " echo_request 6665 1 len=0 ...");
}
