// Made from crates/workloads/src/dump/reading.rt by rust/erase.
//! What an analyst reads in a capture.

use crate::digest::Digest;
use crate::digest::frames::{add_datagram, add_frame, add_ports, add_record};
use crate::digest::groups::add_igmp;
use crate::digest::icmp::{add_icmpv4, add_icmpv6};
use crate::digest::lease::add_lease;
use crate::digest::since_start::{ending_number, refusal_number};
use crate::responses::message;
use capture::{Capture, Next};
use control_wire::frames::{Addresses, Datagram, Link, Network, UdpPacket, UdpRepr};
use control_wire::{ChecksumCapabilities, IpProtocol, Ipv6Address, dhcpv4, icmpv4, icmpv6, igmp};
use rattle_std::io::BufRead;

// The port of servers of DNS.
const DNS_PORT: u16 = 53;

/// Reads a capture to its end, where it has at most this many records, and adds what it holds.
pub fn read<R: BufRead>(input: &mut R, most: usize, digest: &mut Digest) {
    let mut capture = Capture::new();
    for _ in 0..most {
        match capture.next(input) {
            Ok(Next::Record(record)) => {
                add_record(&record, capture.octets(), digest);
                read_frame(record.link_type, capture.octets(), digest);
            }
            Ok(Next::Ended(ending)) => {
                digest.add(ending_number(ending) as u64);
                return;
            }
            Err(fault) => {
                digest.add(16 + fault as u64);
                return;
            }
        }
    }
}

// Reads a frame and its datagram.
fn read_frame(link_type: u16, octets: &[u8], digest: &mut Digest) {
    let Some(link) = Link::of(link_type) else {
        digest.add(1);
        return;
    };
    let Ok(frame) = link.frame(octets) else {
        digest.add(2);
        return;
    };
    add_frame(&frame, digest);
    let datagram = match frame.network {
        Network::Ipv4 => Datagram::parse_v4(frame.payload),
        Network::Ipv6 => Datagram::parse_v6(frame.payload),
        Network::Other(_) => {
            digest.add(3);
            return;
        }
    };
    match datagram {
        Ok(datagram) => read_datagram(&datagram, digest),
        Err(refusal) => digest.add(4 + refusal_number(refusal) as u64),
    }
}

// Reads the message of a datagram.
fn read_datagram(datagram: &Datagram<'_>, digest: &mut Digest) {
    add_datagram(datagram, digest);
    match (datagram.protocol, datagram.addresses) {
        (IpProtocol::Udp, _) => read_udp(datagram, digest),
        (IpProtocol::Icmp, _) => read_icmpv4(datagram.payload, digest),
        (IpProtocol::Igmp, _) => read_igmp(datagram.payload, digest),
        (IpProtocol::Icmpv6, Addresses::V6(source, destination)) => {
            read_icmpv6(datagram.payload, &source, &destination, digest);
        }
        _ => digest.add(8),
    }
}

// Reads the message of a UDP datagram: of DNS by the port of its server, and otherwise of DHCP.
fn read_udp(datagram: &Datagram<'_>, digest: &mut Digest) {
    let caps = ChecksumCapabilities::default();
    let Ok(packet) = UdpPacket::new_checked(datagram.payload) else {
        digest.add(9);
        return;
    };
    let Ok(ports) = UdpRepr::parse(&packet, &datagram.addresses, &caps) else {
        digest.add(10);
        return;
    };
    add_ports(&ports, digest);
    digest.add_ends(packet.payload());
    if ports.src_port == DNS_PORT {
        message::read(packet.payload(), digest);
    } else {
        read_lease(packet.payload(), digest);
    }
}

// Reads a DHCP packet.
fn read_lease(octets: &[u8], digest: &mut Digest) {
    match dhcpv4::Repr::parse(&dhcpv4::Packet::new_unchecked(octets)) {
        Ok(lease) => add_lease(&lease, digest),
        Err(_) => digest.add(11),
    }
}

// Reads an ICMP message.
fn read_icmpv4(octets: &[u8], digest: &mut Digest) {
    let packet = icmpv4::Packet::new_unchecked(octets);
    match icmpv4::Repr::parse(&packet, &ChecksumCapabilities::default()) {
        Ok(message) => {
            digest.add(packet.checksum() as u64);
            add_icmpv4(&message, digest);
        }
        Err(_) => digest.add(12),
    }
}

// Reads an ICMPv6 message.
fn read_icmpv6(
    octets: &[u8],
    source: &Ipv6Address,
    destination: &Ipv6Address,
    digest: &mut Digest,
) {
    let caps = ChecksumCapabilities::default();
    let packet = icmpv6::Packet::new_unchecked(octets);
    match icmpv6::Repr::parse(source, destination, &packet, &caps) {
        Ok(message) => {
            digest.add(packet.checksum() as u64);
            add_icmpv6(&message, digest);
        }
        Err(_) => digest.add(7),
    }
}

// Reads an IGMP message.
fn read_igmp(octets: &[u8], digest: &mut Digest) {
    let Ok(packet) = igmp::Packet::new_checked(octets) else {
        digest.add(13);
        return;
    };
    match igmp::Repr::parse(&packet) {
        Ok(message) => {
            digest.add(packet.checksum() as u64);
            digest.add(packet.verify_checksum() as u64);
            add_igmp(&message, digest);
        }
        Err(_) => digest.add(14),
    }
}
