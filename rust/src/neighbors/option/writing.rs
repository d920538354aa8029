// Made from crates/neighbor_wire/src/option/writing.rt by rust/erase.
//! Options written into octets.

use super::{NeighborOption, UNIT, field};
use crate::neighbors::nat64::Nat64Prefix;
use crate::neighbors::prefix::Prefix;
use crate::neighbors::route::Route;
use crate::wirebase::ByteWriter;

// Writes the option over the front of the octets.
pub(super) fn write(option: &NeighborOption<'_>, octets: &mut [u8]) {
    let mut w = ByteWriter::new(octets);
    put(&mut w, option);
}

// The bytes of the option without the zeros behind it.
pub(crate) fn body_len(option: &NeighborOption<'_>) -> usize {
    match option {
        NeighborOption::SourceLinkLayerAddress(data)
        | NeighborOption::TargetLinkLayerAddress(data)
        | NeighborOption::Nonce(data)
        | NeighborOption::CaptivePortal(data)
        | NeighborOption::Other { data, .. } => field::DATA + data.len(),
        NeighborOption::Prefix(_) => field::PREFIX.end,
        NeighborOption::Mtu(_) => field::MTU.end,
        NeighborOption::Route(route) => field::BEHIND_LIFETIME + route.prefix.len(),
        NeighborOption::DnsServers { servers, .. } => field::BEHIND_LIFETIME + servers.octets.len(),
        NeighborOption::SearchList { names, .. } => field::BEHIND_LIFETIME + names.octets.len(),
        NeighborOption::Nat64Prefix(nat64) => field::NAT64_PREFIX + nat64.prefix.len(),
    }
}

// The bytes of the whole units that hold so many.
pub(crate) fn whole_len(len: usize) -> usize {
    (len + UNIT - 1) / UNIT * UNIT
}

// Writes the fields of the option.
fn put(w: &mut ByteWriter<'_>, option: &NeighborOption<'_>) {
    match option {
        NeighborOption::SourceLinkLayerAddress(data) => put_data(w, 1, data),
        NeighborOption::TargetLinkLayerAddress(data) => put_data(w, 2, data),
        NeighborOption::Prefix(prefix) => put_prefix(w, prefix),
        NeighborOption::Mtu(mtu) => put_mtu(w, *mtu),
        NeighborOption::Nonce(data) => put_data(w, 14, data),
        NeighborOption::Route(route) => put_route(w, route),
        NeighborOption::DnsServers { lifetime, servers } => {
            put_list(w, 25, *lifetime, servers.octets)
        }
        NeighborOption::SearchList { lifetime, names } => put_list(w, 31, *lifetime, names.octets),
        NeighborOption::CaptivePortal(data) => put_data(w, 37, data),
        NeighborOption::Nat64Prefix(nat64) => put_nat64(w, nat64),
        NeighborOption::Other { kind, data } => put_data(w, *kind, data),
    }
}

// Writes the type and the length of an option of so many bytes without the zeros behind it.
fn put_start(w: &mut ByteWriter<'_>, kind: u8, len: usize) {
    w.put_u8(kind);
    w.put_u8((whole_len(len) / UNIT) as u8);
}

// Writes the last octets of an option of so many bytes, and the zeros behind them.
fn put_end(w: &mut ByteWriter<'_>, octets: &[u8], len: usize) {
    w.put_bytes(octets);
    w.put_zeros(whole_len(len) - len);
}

// Writes an option of octets alone.
fn put_data(w: &mut ByteWriter<'_>, kind: u8, octets: &[u8]) {
    let len = field::DATA + octets.len();
    put_start(w, kind, len);
    put_end(w, octets, len);
}

// Writes an option of a lifetime and a list.
fn put_list(w: &mut ByteWriter<'_>, kind: u8, lifetime: u32, octets: &[u8]) {
    let len = field::BEHIND_LIFETIME + octets.len();
    put_start(w, kind, len);
    w.put_u16(0);
    w.put_u32(lifetime);
    put_end(w, octets, len);
}

// Writes a prefix.
fn put_prefix(w: &mut ByteWriter<'_>, prefix: &Prefix) {
    let on_link = if prefix.on_link { 128 } else { 0 };
    let autonomous = if prefix.autonomous { 64 } else { 0 };
    let router_address = if prefix.router_address { 32 } else { 0 };
    w.put_u8(3);
    w.put_u8(4);
    w.put_u8(prefix.prefix_len);
    w.put_u8(on_link + autonomous + router_address);
    w.put_u32(prefix.valid_lifetime);
    w.put_u32(prefix.preferred_lifetime);
    w.put_u32(0);
    w.put_bytes(&prefix.prefix.octets());
}

// Writes an MTU.
fn put_mtu(w: &mut ByteWriter<'_>, bytes: u32) {
    w.put_u8(5);
    w.put_u8(1);
    w.put_u16(0);
    w.put_u32(bytes);
}

// Writes a route.
fn put_route(w: &mut ByteWriter<'_>, route: &Route<'_>) {
    let len = field::BEHIND_LIFETIME + route.prefix.len();
    put_start(w, 24, len);
    w.put_u8(route.prefix_len);
    w.put_u8(route.preference.bits() * 8);
    w.put_u32(route.lifetime);
    put_end(w, route.prefix, len);
}

// Writes a NAT64 prefix.
fn put_nat64(w: &mut ByteWriter<'_>, nat64: &Nat64Prefix<'_>) {
    let len = field::NAT64_PREFIX + nat64.prefix.len();
    put_start(w, 38, len);
    w.put_u16(nat64.scaled_lifetime * 8 + nat64.length.code() as u16);
    put_end(w, nat64.prefix, len);
}
