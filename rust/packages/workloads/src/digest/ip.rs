// Made from crates/workloads/src/digest/ip.rt by rust/erase.
//! Adds addresses, and the headers of IP.

use crate::digest::Digest;
use byteorder::{ByteOrder, LittleEndian};
use control_wire::{IpProtocol, Ipv4Address, Ipv4Repr, Ipv6Address, Ipv6Repr, RawHardwareAddress};

/// Adds an IPv4 address.
#[inline(always)]
pub fn add_ipv4_address(address: &Ipv4Address, digest: &mut Digest) {
    digest.add(u32::from_be_bytes(address.octets()) as u64);
}

/// Adds an IPv6 address.
#[inline(always)]
pub fn add_ipv6_address(address: &Ipv6Address, digest: &mut Digest) {
    let octets = address.octets();
    digest.add(LittleEndian::read_u64(&octets[..8]));
    digest.add(LittleEndian::read_u64(&octets[8..]));
}

/// Adds an address on a link, which may be missing.
pub fn add_link_address(address: &Option<RawHardwareAddress>, digest: &mut Digest) {
    match address {
        Some(address) => digest.add_octets(address.as_bytes()),
        None => digest.add_missing(),
    }
}

/// Adds a protocol.
#[inline(always)]
pub fn add_protocol(protocol: IpProtocol, digest: &mut Digest) {
    let is_named = !matches!(protocol, IpProtocol::Unknown(_));
    digest.add_numbered(u8::from(protocol) as u16, is_named);
}

/// Adds what an IPv4 header says.
pub fn add_ipv4_header(header: &Ipv4Repr, digest: &mut Digest) {
    let Ipv4Repr {
        src_addr,
        dst_addr,
        next_header,
        payload_len,
        hop_limit,
    } = header;
    add_ipv4_address(src_addr, digest);
    add_ipv4_address(dst_addr, digest);
    add_protocol(*next_header, digest);
    digest.add(*payload_len as u64);
    digest.add(*hop_limit as u64);
}

/// Adds what an IPv6 header says.
pub fn add_ipv6_header(header: &Ipv6Repr, digest: &mut Digest) {
    let Ipv6Repr {
        src_addr,
        dst_addr,
        next_header,
        payload_len,
        hop_limit,
    } = header;
    add_ipv6_address(src_addr, digest);
    add_ipv6_address(dst_addr, digest);
    add_protocol(*next_header, digest);
    digest.add(*payload_len as u64);
    digest.add(*hop_limit as u64);
}
