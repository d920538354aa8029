// Made from crates/examples/src/member.rt by rust/erase.
//! A host that is a member of multicast groups over IPv4, by IGMP, versions 1 and 2 (RFC 1112 appendix I, RFC 2236).

use control_wire::igmp::{IgmpVersion, Packet, Repr};
use control_wire::{Duration, Ipv4Address};

/// The length of each message in bytes.
pub const MESSAGE_LEN: usize = 8;

/// Writes the report by which a host joins a group, to be sent to that group (RFC 2236 section 3). Requires 8 bytes.
pub fn join(group_addr: Ipv4Address, out: &mut [u8]) {
    let version = IgmpVersion::Version2;
    let message = Repr::MembershipReport {
        group_addr,
        version,
    };
    message.emit_into(out);
}

// The time within which a query of version 1 is answered, in seconds (RFC 2236 section 4).
const VERSION_1_SECS: u64 = 10;

/// Writes the report that answers a query for a group that the host is in, in the query's version, and says within
/// which time it is to be sent: of a query of version 1 within 10 s (RFC 2236 section 4). None exactly where the octets
/// are no good query for this group; then the report is as it was. Requires 8 bytes.
pub fn answer(query: &[u8], group_addr: Ipv4Address, report: &mut [u8]) -> Option<Duration> {
    let packet = Packet::new_unchecked(query);
    if !packet.verify_checksum() {
        return None;
    }
    let message = match Repr::parse(&packet) {
        Ok(message) => message,
        Err(_) => return None,
    };
    let Repr::MembershipQuery {
        max_resp_time,
        group_addr: asked,
        version,
    } = message
    else {
        return None;
    };
    if asked != group_addr && !asked.is_unspecified() {
        return None;
    }
    let answer = Repr::MembershipReport {
        group_addr,
        version,
    };
    answer.emit_into(report);
    Some(match version {
        IgmpVersion::Version1 => Duration::from_secs(VERSION_1_SECS),
        IgmpVersion::Version2 => max_resp_time,
    })
}

/// Writes the message by which a host leaves a group, to be sent to all routers, 224.0.0.2 (RFC 2236 section 3).
/// Requires 8 bytes.
pub fn leave(group_addr: Ipv4Address, out: &mut [u8]) {
    let message = Repr::LeaveGroup { group_addr };
    message.emit_into(out);
}
