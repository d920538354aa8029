// Made from crates/workloads/src/digest/neighbors.rt by rust/erase.
//! Adds what messages of neighbor discovery say.

use crate::digest::Digest;
use crate::digest::ip::{add_ipv6_address, add_ipv6_header, add_link_address};
use control_wire::ndisc::Repr;
use control_wire::ndiscoption::{PrefixInformation, RedirectedHeader};

/// Adds what a message says.
pub fn add_ndisc(message: &Repr<'_>, digest: &mut Digest) {
    match message {
        Repr::RouterSolicit { lladdr } => {
            digest.add(1);
            add_link_address(lladdr, digest);
        }
        Repr::RouterAdvert {
            hop_limit,
            flags,
            router_lifetime,
            reachable_time,
            retrans_time,
            lladdr,
            mtu,
            prefix_info,
        } => {
            digest.add(2);
            digest.add(*hop_limit as u64);
            digest.add(flags.bits() as u64);
            digest.add(router_lifetime.total_micros());
            digest.add(reachable_time.total_micros());
            digest.add(retrans_time.total_micros());
            add_link_address(lladdr, digest);
            digest.add_option(*mtu);
            add_prefix(prefix_info, digest);
        }
        Repr::NeighborSolicit {
            target_addr,
            lladdr,
        } => {
            digest.add(3);
            add_ipv6_address(target_addr, digest);
            add_link_address(lladdr, digest);
        }
        Repr::NeighborAdvert {
            flags,
            target_addr,
            lladdr,
        } => {
            digest.add(4);
            digest.add(flags.bits() as u64);
            add_ipv6_address(target_addr, digest);
            add_link_address(lladdr, digest);
        }
        Repr::Redirect {
            target_addr,
            dest_addr,
            lladdr,
            redirected_hdr,
        } => {
            digest.add(5);
            add_ipv6_address(target_addr, digest);
            add_ipv6_address(dest_addr, digest);
            add_link_address(lladdr, digest);
            add_redirected(redirected_hdr, digest);
        }
    }
}

// Adds a prefix of the link, where there is one.
fn add_prefix(prefix: &Option<PrefixInformation>, digest: &mut Digest) {
    let Some(prefix) = prefix else {
        digest.add_missing();
        return;
    };
    let PrefixInformation {
        prefix_len,
        flags,
        valid_lifetime,
        preferred_lifetime,
        prefix,
    } = prefix;
    digest.add(*prefix_len as u64);
    digest.add(flags.bits() as u64);
    digest.add(valid_lifetime.total_micros());
    digest.add(preferred_lifetime.total_micros());
    add_ipv6_address(prefix, digest);
}

// Adds the packet in a redirect, where there is one.
fn add_redirected(packet: &Option<RedirectedHeader<'_>>, digest: &mut Digest) {
    let Some(packet) = packet else {
        digest.add_missing();
        return;
    };
    let RedirectedHeader { header, data } = packet;
    add_ipv6_header(header, digest);
    digest.add_front(data);
}
