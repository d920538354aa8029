// Made from crates/examples/src/listener/version1.rt by rust/erase.
//! Multicast listener discovery, version 1 (RFC 2710), by which a host answers a querier of that version: its queries
//! have just 24 bytes (RFC 3810 section 8.2.1). Each group has a report of its own. Messages go with hop limit 1 and
//! after the options of `router_alert`, too.

use super::HOP_LIMIT;
use control_wire::icmpv6::{Message, Packet};
use control_wire::{Duration, IPV6_LINK_LOCAL_ALL_ROUTERS, Ipv6Address};

/// The length of each message in bytes.
pub const MESSAGE_LEN: usize = 24;

// The types of a report and of a done message (RFC 2710 section 3.1).
const REPORT: u8 = 131;

const DONE: u8 = 132;

/// Writes the report by which a host says that it listens to a group to the start of the octets, to be sent to that
/// group (RFC 2710 section 4). None exactly where they are fewer than 24; then they are as they were.
pub fn report(own: &Ipv6Address, group_addr: &Ipv6Address, out: &mut [u8]) -> Option<usize> {
    write(REPORT, own, group_addr, group_addr, out)
}

/// Writes the message by which a host says that it no longer listens to a group, to be sent to all routers, `ff02::2`.
/// None exactly where the octets are fewer than 24; then they are as they were.
pub fn done(own: &Ipv6Address, group_addr: &Ipv6Address, out: &mut [u8]) -> Option<usize> {
    write(DONE, own, &IPV6_LINK_LOCAL_ALL_ROUTERS, group_addr, out)
}

/// The time within which a query for this group or for all is to be answered by `report`, which came from `querier`
/// with this hop limit and went to `asked`. None exactly where the octets are no valid query of version 1 for the group
/// (RFC 2710 sections 3.4 and 3.7, RFC 3810 section 8.1).
pub fn max_delay(
    querier: &Ipv6Address,
    asked: &Ipv6Address,
    hop_limit: u8,
    group_addr: &Ipv6Address,
    query: &[u8],
) -> Option<Duration> {
    if hop_limit != HOP_LIMIT || !querier.is_link_local() || query.len() != MESSAGE_LEN {
        return None;
    }
    let packet = Packet::new_unchecked(query);
    if packet.msg_type() != Message::MldQuery || packet.msg_code() != 0 {
        return None;
    }
    if !packet.verify_checksum(querier, asked) {
        return None;
    }
    let group = packet.mcast_addr();
    if !group.is_unspecified() && group.octets() != group_addr.octets() {
        return None;
    }
    Some(Duration::from_millis(packet.max_resp_code() as u64))
}

// Writes a message of this type about a group to the start of the octets.
fn write(
    kind: u8,
    own: &Ipv6Address,
    to: &Ipv6Address,
    group: &Ipv6Address,
    out: &mut [u8],
) -> Option<usize> {
    if out.len() < MESSAGE_LEN {
        return None;
    }
    write_message(kind, own, to, group, &mut out[..MESSAGE_LEN]);
    Some(MESSAGE_LEN)
}

// Writes it into just its octets.
fn write_message(
    kind: u8,
    own: &Ipv6Address,
    to: &Ipv6Address,
    group: &Ipv6Address,
    out: &mut [u8],
) {
    put_fields(kind, group, out);
    Packet::new_unchecked(out).fill_checksum(own, to);
}

// Writes its fields, with the checksum zero.
fn put_fields(kind: u8, group: &Ipv6Address, out: &mut [u8]) {
    out[..8].copy_from_slice(&[kind, 0, 0, 0, 0, 0, 0, 0]);
    out[8..].copy_from_slice(&group.octets());
}
