// Made from crates/workloads/src/digest/frames.rt by rust/erase.
//! Adds what captures, frames and datagrams hold.

use crate::digest::Digest;
use crate::digest::ip::{add_ipv4_address, add_ipv6_address, add_protocol};
use crate::digest::since_start::since_1970;
use capture::Record;
use control_wire::frames::{Addresses, Datagram, Frame, Network, UdpRepr};

/// Adds a record of a capture and the bytes that it keeps.
pub fn add_record(record: &Record, octets: &[u8], digest: &mut Digest) {
    let Record {
        number,
        time,
        link_type,
        captured_len,
        original_len,
    } = record;
    let (seconds, nanoseconds) = since_1970(time);
    digest.add(*number);
    digest.add(seconds);
    digest.add(nanoseconds as u64);
    digest.add(*link_type as u64);
    digest.add(*captured_len as u64);
    digest.add(*original_len as u64);
    digest.add_front(octets);
    digest.add_ends(octets);
}

/// Adds what a frame holds.
pub fn add_frame(frame: &Frame<'_>, digest: &mut Digest) {
    let Frame {
        network,
        tags,
        payload,
    } = frame;
    match network {
        Network::Ipv4 => digest.add(1),
        Network::Ipv6 => digest.add(2),
        Network::Other(number) => digest.add(65_536 + *number as u64),
    }
    digest.add_octets(tags);
    digest.add_ends(payload);
}

/// Adds what a datagram holds.
pub fn add_datagram(datagram: &Datagram<'_>, digest: &mut Digest) {
    let Datagram {
        addresses,
        protocol,
        hop_limit,
        payload,
        // The options of hop-by-hop headers, which the library at the start does not return.
        ..
    } = datagram;
    match addresses {
        Addresses::V4(source, destination) => {
            digest.add(4);
            add_ipv4_address(source, digest);
            add_ipv4_address(destination, digest);
        }
        Addresses::V6(source, destination) => {
            digest.add(6);
            add_ipv6_address(source, digest);
            add_ipv6_address(destination, digest);
        }
    }
    add_protocol(*protocol, digest);
    digest.add(*hop_limit as u64);
    digest.add_ends(payload);
}

/// Adds the ports of a UDP datagram.
pub fn add_ports(ports: &UdpRepr, digest: &mut Digest) {
    let UdpRepr { src_port, dst_port } = ports;
    digest.add(*src_port as u64);
    digest.add(*dst_port as u64);
}
