// Made from crates/icmp6_wire/src/ndisc/reading.rt by rust/erase.
//! Makes messages from the octets of a packet and its options, by their types.

use super::options_seen::OptionsSeen;
use super::repr::Repr;
use crate::icmp6_wire::icmpv6::Packet;

// The router solicitation in octets of that type, with these options.
#[inline(always)]
pub(crate) fn router_solicit<'a, B: AsRef<[u8]> + ?Sized>(
    packet: &Packet<&'a B>,
    found: &OptionsSeen<'a>,
) -> Repr<'a> {
    Repr::RouterSolicit {
        lladdr: found.source,
    }
}

// The router advertisement in octets of that type, with these options.
#[inline(always)]
pub(crate) fn router_advert<'a, B: AsRef<[u8]> + ?Sized>(
    packet: &Packet<&'a B>,
    found: &OptionsSeen<'a>,
) -> Repr<'a> {
    Repr::RouterAdvert {
        hop_limit: packet.current_hop_limit(),
        flags: packet.router_flags(),
        router_lifetime: packet.router_lifetime(),
        reachable_time: packet.reachable_time(),
        retrans_time: packet.retrans_time(),
        lladdr: found.source,
        mtu: found.mtu,
        prefix_info: found.prefix_info,
    }
}

// The neighbor solicitation in octets of that type, with these options.
#[inline(always)]
pub(crate) fn neighbor_solicit<'a, B: AsRef<[u8]> + ?Sized>(
    packet: &Packet<&'a B>,
    found: &OptionsSeen<'a>,
) -> Repr<'a> {
    Repr::NeighborSolicit {
        target_addr: packet.target_addr(),
        lladdr: found.source,
    }
}

// The neighbor advertisement in octets of that type, with these options.
#[inline(always)]
pub(crate) fn neighbor_advert<'a, B: AsRef<[u8]> + ?Sized>(
    packet: &Packet<&'a B>,
    found: &OptionsSeen<'a>,
) -> Repr<'a> {
    Repr::NeighborAdvert {
        flags: packet.neighbor_flags(),
        target_addr: packet.target_addr(),
        lladdr: found.target,
    }
}

// The redirect in octets of that type, with these options.
#[inline(always)]
pub(crate) fn redirect<'a, B: AsRef<[u8]> + ?Sized>(
    packet: &Packet<&'a B>,
    found: &OptionsSeen<'a>,
) -> Repr<'a> {
    Repr::Redirect {
        target_addr: packet.target_addr(),
        dest_addr: packet.dest_addr(),
        lladdr: found.target,
        redirected_hdr: found.redirected_hdr,
    }
}
