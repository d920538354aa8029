// Made from crates/tests_icmp/src/icmp6/ndisc/fields.rt by rust/erase.
use super::{here, there};
use crate::testing::same;
use control_wire::Duration;
use control_wire::icmpv6::Packet;
use control_wire::ndisc::{NeighborFlags, RouterFlags};

// Hop limit 64, flag M with bits that have no name, a lifetime of 900 s, and times of 16,778,216 and 4,278,125,344 ms.
const ADVERT_FIELDS: [u8; 16] = [
    0x86, 0x00, 0xa9, 0xde, 0x40, 0xbf, 0x03, 0x84, 0x01, 0x00, 0x03, 0xe8, 0xfe, 0xff, 0x03, 0x20,
];

#[test]
fn fields_of_a_router_advertisement() {
    let packet = Packet::new_unchecked(ADVERT_FIELDS.as_slice());
    same(packet.current_hop_limit(), 64);
    same(packet.router_flags(), RouterFlags::MANAGED);
    let times = [
        packet.router_lifetime(),
        packet.reachable_time(),
        packet.retrans_time(),
    ];
    let wanted = [
        Duration::from_secs(900),
        Duration::from_millis(16_778_216),
        Duration::from_millis(4_278_125_344),
    ];
    same(times, wanted);
}

#[test]
fn fields_of_a_router_advertisement_are_set() {
    let mut buffer = [0x2a; 16];
    let mut packet = Packet::new_unchecked(&mut buffer[..]);
    packet.set_current_hop_limit(64);
    packet.set_router_flags(RouterFlags::all());
    packet.set_router_lifetime(Duration::from_micros(900_999_999));
    packet.set_reachable_time(Duration::from_micros(16_778_216_999));
    packet.set_retrans_time(Duration::from_millis(4_278_125_344));
    same(
        buffer,
        [
            0x2a, 0x2a, 0x2a, 0x2a, 0x40, 0xc0, 0x03, 0x84, 0x01, 0x00, 0x03, 0xe8, 0xfe, 0xff,
            0x03, 0x20,
        ],
    );
}

// Flags S and O, fe80::1 and fe80::2, over octets that are 0x2a.
const NEIGHBOR_FIELDS: [u8; 40] = [
    0x2a, 0x2a, 0x2a, 0x2a, 0x60, 0x2a, 0x2a, 0x2a, 0xfe, 0x80, 0, 0, 0, 0, 0, 0, 0, 0, 0, 0, 0, 0,
    0, 0x01, 0xfe, 0x80, 0, 0, 0, 0, 0, 0, 0, 0, 0, 0, 0, 0, 0, 0x02,
];

#[test]
fn fields_of_neighbor_messages() {
    let mut bytes = [0x2a; 40];
    let mut packet = Packet::new_unchecked(&mut bytes[..]);
    packet.set_neighbor_flags(NeighborFlags::SOLICITED | NeighborFlags::OVERRIDE);
    packet.set_target_addr(here());
    packet.set_dest_addr(there());
    same(
        packet.neighbor_flags(),
        NeighborFlags::SOLICITED | NeighborFlags::OVERRIDE,
    );
    let addresses = [packet.target_addr(), packet.dest_addr()];
    same(addresses, [here(), there()]);
    same(bytes, NEIGHBOR_FIELDS);
}

#[test]
fn flags_without_a_name_are_not_read() {
    let mut bytes = NEIGHBOR_FIELDS;
    bytes[4] = 0xff;
    let packet = Packet::new_unchecked(&bytes[..]);
    same(packet.neighbor_flags(), NeighborFlags::all());
}

#[test]
fn sets_of_flags() {
    same(
        [RouterFlags::all().bits(), NeighborFlags::all().bits()],
        [0xc0, 0xe0],
    );
    same(RouterFlags::from_bits(0x20), None);
    same(
        NeighborFlags::from_bits_truncate(0x3f),
        NeighborFlags::OVERRIDE,
    );
}

#[test]
fn sets_of_router_flags_are_joined_and_parted() {
    let found = [
        !RouterFlags::MANAGED,
        RouterFlags::all() - RouterFlags::MANAGED,
        RouterFlags::MANAGED ^ RouterFlags::OTHER,
        RouterFlags::MANAGED & RouterFlags::OTHER,
    ];
    let wanted = [
        RouterFlags::OTHER,
        RouterFlags::OTHER,
        RouterFlags::all(),
        RouterFlags::empty(),
    ];
    same(found, wanted);
}

#[test]
fn sets_of_neighbor_flags_are_joined_and_parted() {
    let found = [
        (!NeighborFlags::ROUTER).bits(),
        (NeighborFlags::all() ^ NeighborFlags::ROUTER).bits(),
        (NeighborFlags::all() & NeighborFlags::ROUTER).bits(),
        (NeighborFlags::all() - NeighborFlags::all()).bits(),
    ];
    same(found, [0x60, 0x60, 0x80, 0]);
}
