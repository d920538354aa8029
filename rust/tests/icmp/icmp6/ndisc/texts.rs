// Made from crates/tests_icmp/src/icmp6/ndisc/texts.rt by rust/erase.
use super::{
    REDIRECT, ethernet, full_router_advert, here, prefix, read, redirect, router_solicit, there,
};
use crate::testing::{holds_of, print_differently, prints};
use control_wire::Duration;
use control_wire::ndisc::{NeighborFlags, Repr, RouterFlags};
use control_wire::ndiscoption::{PrefixInfoFlags, PrefixInformation};

#[test]
fn texts_of_messages_of_routers() {
    let solicit = Repr::RouterSolicit { lladdr: None };
    prints(&solicit, "NDISC router solicitation");
    prints(
        &router_solicit(),
        "NDISC router solicitation lladdr=52:54:00:12:34:56",
    );
    prints(
        &full_router_advert(),
        "NDISC router advertisement hop_limit=64 flags=managed router_lifetime=900.000s \
         reachable_time=16778.216s retrans_time=4278125.344s lladdr=52:54:00:12:34:56 mtu=1500 \
         prefix_info=(prefix=fe80::1/64 flags=on_link,addrconf valid_lifetime=900.000s \
         preferred_lifetime=1000.000s)",
    );
    prints(
        &redirect(),
        "NDISC redirect target_addr=fe80::1 dest_addr=fe80::2 lladdr=52:54:00:12:34:56 \
         redirected_hdr=(IPv6 src=fe80::1 dst=fe80::2 nxt_hdr=17 hop_limit=64 payload_len=4 data=aabbccdd)",
    );
}

// A router advertisement of a prefix.
fn advert_of(prefix_info: PrefixInformation) -> Repr<'static> {
    Repr::RouterAdvert {
        hop_limit: 64,
        flags: RouterFlags::MANAGED,
        router_lifetime: Duration::from_secs(900),
        reachable_time: Duration::from_millis(0),
        retrans_time: Duration::from_millis(0),
        lladdr: None,
        mtu: None,
        prefix_info: Some(prefix_info),
    }
}

// Checks that an advertisement of this prefix prints another text.
fn check_prefix(prefix_info: PrefixInformation) {
    print_differently(&advert_of(prefix()), &advert_of(prefix_info));
}

#[test]
fn advertisements_of_prefixes_that_differ_in_one_field_print_differently() {
    let info = prefix();
    let others = [
        PrefixInformation {
            prefix_len: 65,
            ..info
        },
        PrefixInformation {
            flags: PrefixInfoFlags::ON_LINK,
            ..info
        },
        PrefixInformation {
            valid_lifetime: Duration::from_secs(901),
            ..info
        },
        PrefixInformation {
            preferred_lifetime: Duration::from_secs(1_001),
            ..info
        },
        PrefixInformation {
            prefix: there(),
            ..info
        },
    ];
    for other in others {
        check_prefix(other);
    }
}

#[test]
fn redirects_of_packets_that_differ_print_differently() {
    let mut octets = REDIRECT;
    octets[99] = 0xde;
    let Ok(other) = read(&octets) else {
        holds_of(99, false);
        return;
    };
    print_differently(&redirect(), &other);
}

#[test]
fn texts_of_messages_of_neighbors() {
    let solicit = Repr::NeighborSolicit {
        target_addr: here(),
        lladdr: Some(ethernet()),
    };
    prints(
        &solicit,
        "NDISC neighbor solicitation target_addr=fe80::1 lladdr=52:54:00:12:34:56",
    );
    let advert = Repr::NeighborAdvert {
        flags: NeighborFlags::OVERRIDE,
        target_addr: here(),
        lladdr: None,
    };
    prints(
        &advert,
        "NDISC neighbor advertisement flags=override target_addr=fe80::1",
    );
}

#[test]
fn flags_print_the_names_of_those_that_are_set() {
    const ROUTER: &[(u8, &str)] = &[
        (0x00, "-"),
        (0x3f, "-"),
        (0x40, "other"),
        (0x80, "managed"),
        (0xff, "managed,other"),
    ];
    for &(bits, text) in ROUTER {
        prints(&RouterFlags::from_bits_retain(bits), text);
    }
    const NEIGHBOR: &[(u8, &str)] = &[
        (0x00, "-"),
        (0x1f, "-"),
        (0x20, "override"),
        (0x40, "solicited"),
        (0x60, "solicited,override"),
        (0x80, "router"),
        (0xa0, "router,override"),
        (0xc0, "router,solicited"),
        (0xff, "router,solicited,override"),
    ];
    for &(bits, text) in NEIGHBOR {
        prints(&NeighborFlags::from_bits_retain(bits), text);
    }
}
