// Made from crates/packet_fields/src/ports.rt by rust/erase.
//! The ports of UDP and TCP.

use control_wire::{Field, IpProtocol, Octets};

// The ports.
const SOURCE: Field = 0..2;

const DESTINATION: Field = 2..4;

const PORTS_END: usize = 4;

/// The ports of the source and of the destination at the start of a header of UDP (RFC 768) or TCP (RFC 9293 section
/// 3.1), which the payload of an IP datagram begins with. None exactly where the protocol is another or where fewer
/// than 4 bytes are there.
pub fn ports_of(protocol: IpProtocol, payload: &[u8]) -> Option<(u16, u16)> {
    if has_ports(protocol) && payload.len() >= PORTS_END {
        Some((payload.u16_at(SOURCE), payload.u16_at(DESTINATION)))
    } else {
        None
    }
}

// Whether the protocol's header begins with ports.
fn has_ports(protocol: IpProtocol) -> bool {
    matches!(protocol, IpProtocol::Tcp | IpProtocol::Udp)
}
