// Made from crates/tests_icmp/src/icmp4/icmpv4.rt by rust/erase.
//! Messages of the tests, with how they are written.

use control_wire::icmpv4::{DstUnreachable, Packet, Repr};
use control_wire::{Checksum, ChecksumCapabilities, IpProtocol, Ipv4Address, Ipv4Repr, Result};

mod damaged;
mod printing;
mod reading;
mod refusing;
mod writing;

const ALL: ChecksumCapabilities = ChecksumCapabilities {
    ipv4: Checksum::Both,
    udp: Checksum::Both,
    tcp: Checksum::Both,
    icmpv4: Checksum::Both,
    icmpv6: Checksum::Both,
};

// The capabilities for every protocol.
const fn all(checksum: Checksum) -> ChecksumCapabilities {
    ChecksumCapabilities {
        ipv4: checksum,
        udp: checksum,
        tcp: checksum,
        icmpv4: checksum,
        icmpv6: checksum,
    }
}

// The header from 10.0.0.1 to 10.0.0.2 that the errors quote.
fn quoted(payload_len: usize) -> Ipv4Repr {
    Ipv4Repr {
        src_addr: Ipv4Address::new(10, 0, 0, 1),
        dst_addr: Ipv4Address::new(10, 0, 0, 2),
        next_header: IpProtocol::Udp,
        payload_len,
        hop_limit: 64,
    }
}

const ECHO_REQUEST: [u8; 12] = [
    0x08, 0x00, 0x8e, 0xfe, 0x12, 0x34, 0xab, 0xcd, 0xaa, 0x00, 0x00, 0xff,
];

// An unreachable port: its header, the quoted header and the eight bytes behind it.
const PORT_UNREACHABLE: [u8; 36] = [
    0x03, 0x03, 0xfc, 0x8a, 0x00, 0x00, 0x00, 0x00, 0x45, 0x00, 0x00, 0x1c, 0x00, 0x00, 0x40, 0x00,
    0x40, 0x11, 0x26, 0xcf, 0x0a, 0x00, 0x00, 0x01, 0x0a, 0x00, 0x00, 0x02, 0x00, 0x35, 0x00, 0x35,
    0x00, 0x08, 0x00, 0x00,
];

const QUOTED_DATA: [u8; 8] = [0x00, 0x35, 0x00, 0x35, 0x00, 0x08, 0x00, 0x00];

// The message in the octets.
fn read<'a>(octets: &'a [u8], capabilities: &ChecksumCapabilities) -> Result<Repr<'a>> {
    Repr::parse(&Packet::new_unchecked(octets), capabilities)
}

// Writes an error that quotes these eight bytes.
fn write_unreachable(octets: &mut [u8], payload_len: usize, capabilities: &ChecksumCapabilities) {
    let mut packet = Packet::new_unchecked(octets);
    Repr::DstUnreachable {
        reason: DstUnreachable::PortUnreachable,
        header: quoted(payload_len),
        data: &QUOTED_DATA,
    }
    .emit(&mut packet, capabilities);
}
