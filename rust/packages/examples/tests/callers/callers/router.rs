// Made from crates/tests_examples/src/callers/router.rt by rust/erase.
use crate::testing::same;
use control_wire::ndisc::RouterFlags;
use control_wire::ndiscoption::{PrefixInfoFlags, PrefixInformation};
use control_wire::{
    Duration, EthernetAddress, IPV6_LINK_LOCAL_ALL_NODES, Ipv6Address, RawHardwareAddress,
};
use examples::router::{RouterInformation, next_prefix, options, router_information, solicit};

const ROUTER_LINK_ADDRESS: EthernetAddress = EthernetAddress([0x02, 0x00, 0x00, 0x00, 0x00, 0x01]);

const OWN_LINK_ADDRESS: EthernetAddress = EthernetAddress([0x02, 0x00, 0x00, 0x00, 0x00, 0x02]);

// fe80::2 asks all routers, and :: does.
const SOLICITATION: [u8; 16] = [
    0x85, 0x00, 0x7a, 0x2a, 0x00, 0x00, 0x00, 0x00, 0x01, 0x01, 0x02, 0x00, 0x00, 0x00, 0x00, 0x02,
];

const OF_NO_ONE: [u8; 8] = [0x85, 0x00, 0x7b, 0xb8, 0x00, 0x00, 0x00, 0x00];

// fe80::1 tells ff02::1 of itself and of three prefixes, in the order that radvd has: 2001:db8:1::/64,
// 2001:db8:2::/64 that no addresses are made of, a DNS server (RFC 8106), fe80::/64, an MTU of 1,480 bytes, and its
// address on the link.
const ADVERTISEMENT: [u8; 152] = [
    0x86, 0x00, 0x9d, 0x1b, 0x40, 0x40, 0x07, 0x08, 0x00, 0x00, 0x75, 0x30, 0x00, 0x00, 0x03, 0xe8,
    0x03, 0x04, 0x40, 0xc0, 0x00, 0x01, 0x51, 0x80, 0x00, 0x00, 0x38, 0x40, 0x00, 0x00, 0x00, 0x00,
    0x20, 0x01, 0x0d, 0xb8, 0x00, 0x01, 0x00, 0x00, 0x00, 0x00, 0x00, 0x00, 0x00, 0x00, 0x00, 0x00,
    0x03, 0x04, 0x40, 0x80, 0x00, 0x01, 0x51, 0x80, 0x00, 0x00, 0x38, 0x40, 0x00, 0x00, 0x00, 0x00,
    0x20, 0x01, 0x0d, 0xb8, 0x00, 0x02, 0x00, 0x00, 0x00, 0x00, 0x00, 0x00, 0x00, 0x00, 0x00, 0x00,
    0x19, 0x03, 0x00, 0x00, 0x00, 0x00, 0x07, 0x08, 0x20, 0x01, 0x0d, 0xb8, 0x00, 0x01, 0x00, 0x00,
    0x00, 0x00, 0x00, 0x00, 0x00, 0x00, 0x00, 0x53, 0x03, 0x04, 0x40, 0xc0, 0x00, 0x01, 0x51, 0x80,
    0x00, 0x00, 0x38, 0x40, 0x00, 0x00, 0x00, 0x00, 0xfe, 0x80, 0x00, 0x00, 0x00, 0x00, 0x00, 0x00,
    0x00, 0x00, 0x00, 0x00, 0x00, 0x00, 0x00, 0x00, 0x05, 0x01, 0x00, 0x00, 0x00, 0x00, 0x05, 0xc8,
    0x01, 0x01, 0x02, 0x00, 0x00, 0x00, 0x00, 0x01,
];

fn router() -> Ipv6Address {
    Ipv6Address::new(0xfe80, 0, 0, 0, 0, 0, 0, 1)
}

#[test]
fn routers_are_solicited() {
    let own = Ipv6Address::new(0xfe80, 0, 0, 0, 0, 0, 0, 2);
    let mut out = [0x2a; 17];
    let written = solicit(&own, OWN_LINK_ADDRESS, &mut out);
    same(written, Some(16));
    same(&out[..16], SOLICITATION.as_slice());
    same(out[16], 0x2a);
    let mut short = [0x2a; 15];
    same(solicit(&own, OWN_LINK_ADDRESS, &mut short), None);
    same(short, [0x2a; 15]);
    let mut out = [0x2a; 8];
    let written = solicit(&Ipv6Address::UNSPECIFIED, OWN_LINK_ADDRESS, &mut out);
    same(written, Some(8));
    same(out, OF_NO_ONE);
}

#[test]
fn a_router_is_read_from_its_advertisement() {
    let told = RouterInformation {
        hop_limit: 64,
        flags: RouterFlags::OTHER,
        lifetime: Duration::from_secs(1_800),
        reachable_time: Duration::from_secs(30),
        retrans_time: Duration::from_secs(1),
        lladdr: Some(RawHardwareAddress::from(ROUTER_LINK_ADDRESS)),
        mtu: Some(1_480),
    };
    let all = IPV6_LINK_LOCAL_ALL_NODES;
    let read = router_information(&router(), &all, 255, &ADVERTISEMENT);
    same(read, Some(told));
}

#[test]
fn advertisements_against_the_rules_are_not_read() {
    let all = IPV6_LINK_LOCAL_ALL_NODES;
    let own = Ipv6Address::new(0xfe80, 0, 0, 0, 0, 0, 0, 2);
    // Forwarded, of another checksum, from an address that is not of the link, and no advertisement.
    let global = Ipv6Address::new(0x2001, 0xdb8, 0, 0, 0, 0, 0, 1);
    let mut from_global = ADVERTISEMENT;
    from_global[2..4].copy_from_slice(&[0x6d, 0xe3]);
    same(
        router_information(&router(), &all, 254, &ADVERTISEMENT),
        None,
    );
    same(
        router_information(&router(), &own, 255, &ADVERTISEMENT),
        None,
    );
    same(router_information(&global, &all, 255, &from_global), None);
    same(router_information(&own, &all, 255, &SOLICITATION), None);
}

// The second is not for making addresses of, and the third is that of the link.
#[test]
fn every_prefix_is_told() {
    let first = PrefixInformation {
        prefix_len: 64,
        flags: PrefixInfoFlags::ON_LINK | PrefixInfoFlags::ADDRCONF,
        valid_lifetime: Duration::from_secs(86_400),
        preferred_lifetime: Duration::from_secs(14_400),
        prefix: Ipv6Address::new(0x2001, 0xdb8, 1, 0, 0, 0, 0, 0),
    };
    let second = PrefixInformation {
        flags: PrefixInfoFlags::ON_LINK,
        prefix: Ipv6Address::new(0x2001, 0xdb8, 2, 0, 0, 0, 0, 0),
        ..first
    };
    let third = PrefixInformation {
        prefix: Ipv6Address::new(0xfe80, 0, 0, 0, 0, 0, 0, 0),
        ..first
    };
    let mut rest = options(&ADVERTISEMENT);
    for (told, is_valid) in [(first, true), (second, false), (third, false)] {
        let Some((prefix, behind)) = next_prefix(rest) else {
            panic!("no prefix");
        };
        same(prefix, told);
        same(prefix.is_valid_prefix_info(), is_valid);
        rest = behind;
    }
    same(next_prefix(rest).is_none(), true);
    same(next_prefix(options(&SOLICITATION[..8])).is_none(), true);
}
