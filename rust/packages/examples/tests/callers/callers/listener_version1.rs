// Made from crates/tests_examples/src/callers/listener_version1.rt by rust/erase.
use crate::testing::same;
use control_wire::{Duration, IPV6_LINK_LOCAL_ALL_NODES, Ipv6Address};
use examples::listener::version1::{MESSAGE_LEN, done, max_delay, report};

// A querier fe80::1 asks for all groups within 10 s, and for ff02::fb within 1 s.
const GENERAL: [u8; MESSAGE_LEN] = [
    0x82, 0x00, 0x59, 0x17, 0x27, 0x10, 0x00, 0x00, 0x00, 0x00, 0x00, 0x00, 0x00, 0x00, 0x00, 0x00,
    0x00, 0x00, 0x00, 0x00, 0x00, 0x00, 0x00, 0x00,
];

const FOR_GROUP: [u8; MESSAGE_LEN] = [
    0x82, 0x00, 0x7b, 0x47, 0x03, 0xe8, 0x00, 0x00, 0xff, 0x02, 0x00, 0x00, 0x00, 0x00, 0x00, 0x00,
    0x00, 0x00, 0x00, 0x00, 0x00, 0x00, 0x00, 0xfb,
];

// fe80::2 listens to ff02::fb, and no longer does.
const REPORT: [u8; MESSAGE_LEN] = [
    0x83, 0x00, 0x7e, 0x2e, 0x00, 0x00, 0x00, 0x00, 0xff, 0x02, 0x00, 0x00, 0x00, 0x00, 0x00, 0x00,
    0x00, 0x00, 0x00, 0x00, 0x00, 0x00, 0x00, 0xfb,
];

const DONE: [u8; MESSAGE_LEN] = [
    0x84, 0x00, 0x7e, 0x27, 0x00, 0x00, 0x00, 0x00, 0xff, 0x02, 0x00, 0x00, 0x00, 0x00, 0x00, 0x00,
    0x00, 0x00, 0x00, 0x00, 0x00, 0x00, 0x00, 0xfb,
];

const NAMES: [u8; 16] = [0xff, 0x02, 0, 0, 0, 0, 0, 0, 0, 0, 0, 0, 0, 0, 0, 0xfb];

fn querier() -> Ipv6Address {
    Ipv6Address::new(0xfe80, 0, 0, 0, 0, 0, 0, 1)
}

fn own() -> Ipv6Address {
    Ipv6Address::new(0xfe80, 0, 0, 0, 0, 0, 0, 2)
}

#[test]
fn groups_are_reported_and_left() {
    let names = Ipv6Address::from_octets(NAMES);
    let mut out = [0xa5; 25];
    same(report(&own(), &names, &mut out), Some(MESSAGE_LEN));
    same(&out[..24], REPORT.as_slice());
    same(done(&own(), &names, &mut out), Some(MESSAGE_LEN));
    same(&out[..24], DONE.as_slice());
    same(out[24], 0xa5);
    let mut short = [0xa5; 23];
    same(report(&own(), &names, &mut short), None);
    same(short, [0xa5; 23]);
}

#[test]
fn queries_tell_a_time() {
    let names = Ipv6Address::from_octets(NAMES);
    let all = IPV6_LINK_LOCAL_ALL_NODES;
    let told = max_delay(&querier(), &all, 1, &names, &GENERAL);
    same(told, Some(Duration::from_secs(10)));
    let told = max_delay(&querier(), &names, 1, &names, &FOR_GROUP);
    same(told, Some(Duration::from_secs(1)));
}

// Forwarded, of another checksum, for another group, of another length, and no query.
#[test]
fn what_is_no_query_for_a_group_is_not_taken() {
    let names = Ipv6Address::from_octets(NAMES);
    let all = IPV6_LINK_LOCAL_ALL_NODES;
    let querier = querier();
    same(max_delay(&querier, &all, 2, &names, &GENERAL), None);
    same(max_delay(&querier, &names, 1, &names, &GENERAL), None);
    same(max_delay(&querier, &names, 1, &all, &FOR_GROUP), None);
    same(max_delay(&querier, &all, 1, &names, &GENERAL[..23]), None);
    same(max_delay(&own(), &names, 1, &names, &REPORT), None);
}
