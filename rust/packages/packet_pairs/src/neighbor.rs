// Made from crates/packet_pairs/src/neighbor.rt by rust/erase.
//! Neighbor solicitations and advertisements (RFC 4861 sections 4.3 and 4.4).

use crate::exchange::{Exchange, Role};
use crate::key::{Key, NeighborKey};
use control_wire::Ipv6Address;
use control_wire::icmpv6::{Message, Packet};
use control_wire::ndisc::NeighborFlags;

// The bytes up to the end of the target address.
const TARGET_END: usize = 24;

/// The solicitation or the advertisement in these octets, which are sent between these addresses.
pub(crate) fn neighbor_in(
    src_addr: Ipv6Address,
    dst_addr: Ipv6Address,
    octets: &[u8],
) -> Option<Exchange> {
    if octets.len() < TARGET_END {
        return None;
    }
    let packet = Packet::new_unchecked(octets);
    match packet.msg_type() {
        Message::NeighborSolicit if !src_addr.is_unspecified() => {
            Some(neighbor(Role::Asks, src_addr, &packet))
        }
        Message::NeighborAdvert if is_solicited(&packet) => {
            Some(neighbor(Role::Answers, dst_addr, &packet))
        }
        _ => None,
    }
}

// The message of this role, whose question is this asker's.
fn neighbor(role: Role, asker: Ipv6Address, packet: &Packet<&[u8]>) -> Exchange {
    let key = NeighborKey {
        asker,
        target: packet.target_addr(),
    };
    Exchange {
        role,
        key: Key::Neighbor(key),
    }
}

// Whether the flags of an advertisement say that it was solicited.
fn is_solicited(packet: &Packet<&[u8]>) -> bool {
    packet.neighbor_flags().contains(NeighborFlags::SOLICITED)
}
