// Made from crates/tests_dhcp_dns/src/dhcp/dhcpv4_repr/reading.rt by rust/erase.
use super::{bare, compare_read, held_in};
use crate::dhcp::dhcpv4::{discover_with, packet, padded_discover};
use crate::dhcp::plain_reader::{compare_damaged, set};
use crate::testing::{fail, same, same_of};
use control_wire::dhcpv4::{MessageType, Packet, Repr};
use control_wire::{EthernetAddress, Ipv4Address};

// The type of message of a packet, where it is read.
fn type_in(packet: &[u8]) -> Option<MessageType> {
    match Repr::parse(&Packet::new_unchecked(packet)) {
        Ok(read) => Some(read.message_type),
        Err(_) => None,
    }
}

// Compares what a packet that is read holds of some kinds of option.
fn check_held(packet: &[u8], wanted: &[(u8, Option<u64>)]) {
    for &(kind, number) in wanted {
        same_of(kind, held_in(packet, kind), Some(number));
    }
}

#[test]
fn types_of_message_with_the_operation_of_the_packet() {
    const ROWS: &[(u8, &[u8], Option<MessageType>)] = &[
        (
            1,
            &[0x35, 1, 1, 0x35, 1, 2, 0xff],
            Some(MessageType::Discover),
        ),
        (
            1,
            &[0x35, 1, 1, 0x35, 1, 3, 0xff],
            Some(MessageType::Request),
        ),
        (1, &[0x35, 1, 2, 0xff], None),
        (1, &[0x35, 0, 0xff], None),
        (1, &[0x35, 2, 1, 1, 0xff], None),
        (1, &[0xff], None),
        (1, &[0xff, 0x35, 1, 1], None),
        (0, &[0x35, 1, 9, 0xff], Some(MessageType::Unknown(9))),
        (1, &[0x35, 1, 1, 0x3d, 7, 2, 0, 0, 0, 0, 0, 0, 0xff], None),
        (
            1,
            &[
                0x35, 1, 1, 0x3d, 7, 2, 0, 0, 0, 0, 0, 0, 0x3d, 7, 1, 0, 0, 0, 0, 0, 0, 0xff,
            ],
            None,
        ),
    ];
    for &(op, options, wanted) in ROWS {
        let mut octets = packet(op, options);
        same_of((op, options), type_in(octets.as_slice()), wanted);
        compare_damaged(octets.as_mut_slice());
    }
}

#[test]
fn packets_that_are_not_of_ethernet_or_of_dhcp() {
    const ROWS: &[(usize, u8)] = &[
        (1, 0),
        (1, 2),
        (2, 5),
        (2, 7),
        (236, 0x62),
        (239, 0x64),
        (0, 2),
    ];
    for &(place, byte) in ROWS {
        let mut octets = packet(1, &[0x35, 1, 1, 0xff]);
        let whole = type_in(octets.as_slice());
        same_of(place, whole, Some(MessageType::Discover));
        set(octets.as_mut_slice(), place, byte);
        same_of(place, type_in(octets.as_slice()), None);
    }
    same(type_in(&[1; 239]), None);
}

#[test]
fn the_last_option_of_a_kind_and_of_its_length() {
    // An operation and options, and what the packet holds of some kinds.
    const ROWS: &[(u8, &[u8], &[(u8, Option<u64>)])] = &[
        (
            1,
            &[
                0x35, 1, 1, 1, 4, 255, 255, 255, 0, 1, 4, 255, 255, 0, 0, 0xff,
            ],
            &[(1, Some(0xffff_0000))],
        ),
        // The last one is of another length, or cut off.
        (
            1,
            &[
                0x35, 1, 1, 1, 4, 255, 255, 255, 0, 1, 3, 0, 0, 0, 0x36, 4, 10,
            ],
            &[(1, Some(0xffff_ff00)), (54, None)],
        ),
        // Lists are present and empty.
        (
            1,
            &[0x35, 1, 1, 6, 0, 0x37, 0, 0x3d, 2, 0, 1, 0xff],
            &[(61, None), (55, Some(0)), (6, Some(0))],
        ),
        // Every option is there twice, and then of another length.
        (
            2,
            &[
                0x35, 1, 2, 0x35, 1, 5, 0x35, 2, 2, 2, 0x3d, 7, 1, 2, 0, 0, 0, 0, 1, 0x3d, 7, 1, 2,
                0, 0, 0, 0, 2, 0x3d, 6, 1, 2, 0, 0, 0, 0, 0x36, 4, 10, 0, 0, 1, 0x36, 4, 10, 0, 0,
                2, 0x36, 5, 10, 0, 0, 3, 0, 3, 4, 10, 0, 0, 3, 3, 4, 10, 0, 0, 4, 3, 8, 10, 0, 0,
                5, 10, 0, 0, 6, 1, 4, 255, 0, 0, 0, 1, 4, 255, 255, 0, 0, 1, 3, 0, 0, 0, 0x32, 4,
                10, 0, 0, 7, 0x32, 4, 10, 0, 0, 8, 0x32, 0, 0x39, 2, 0, 1, 0x39, 2, 0, 9, 0x39, 3,
                0, 0, 3, 0x33, 4, 0, 0, 0, 1, 0x33, 4, 0, 0, 0, 2, 0x33, 3, 0, 0, 3, 0x3a, 4, 0, 0,
                0, 3, 0x3a, 4, 0, 0, 0, 4, 0x3a, 5, 0, 0, 0, 5, 0, 0x3b, 4, 0, 0, 0, 5, 0x3b, 4, 0,
                0, 0, 6, 0x3b, 2, 0, 7, 0xff,
            ],
            &[
                (53, Some(5)),
                (54, Some(0x0a00_0002)),
                (3, Some(0x0a00_0004)),
                (1, Some(0xffff_0000)),
                (50, Some(0x0a00_0008)),
                (61, Some(0x0200_0000_0002)),
                (57, Some(9)),
                (51, Some(2)),
                (58, Some(4)),
                (59, Some(6)),
            ],
        ),
    ];
    for &(op, options, wanted) in ROWS {
        let mut octets = packet(op, options);
        check_held(octets.as_slice(), wanted);
        compare_damaged(octets.as_mut_slice());
    }
}

// Compares the list of servers of a packet.
fn check_servers(packet: &[u8], wanted: &[[u8; 4]]) {
    let read = Repr::parse(&Packet::new_unchecked(packet));
    let Ok(read) = read else {
        fail("the packet is read");
        return;
    };
    let Some(servers) = read.dns_servers else {
        fail("the list is present");
        return;
    };
    same_of(packet, servers.len(), wanted.len());
    for (server, octets) in servers.iter().zip(wanted) {
        same_of(packet, server.octets(), *octets);
    }
}

#[test]
fn lists_of_servers() {
    // Options, and the addresses of the list.
    const ROWS: &[(&[u8], &[[u8; 4]])] = &[
        (&[6, 6, 8, 8, 8, 8, 1, 2], &[[8, 8, 8, 8]]),
        (&[6, 4, 8, 8, 8, 8, 6, 0], &[]),
        (&[6, 4, 8, 8, 8, 8, 6, 3, 1, 2, 3], &[]),
        (
            &[
                6, 24, 10, 0, 0, 1, 10, 0, 0, 2, 10, 0, 0, 3, 10, 0, 0, 4, 10, 0, 0, 5, 10, 0, 0, 6,
            ],
            &[
                [10, 0, 0, 1],
                [10, 0, 0, 2],
                [10, 0, 0, 3],
                [10, 0, 0, 4],
                [10, 0, 0, 5],
            ],
        ),
    ];
    for &(options, wanted) in ROWS {
        let mut octets = discover_with(options);
        check_servers(octets.as_slice(), wanted);
        compare_damaged(octets.as_mut_slice());
    }
}

// An offer with all that a client takes.
fn offered() -> Repr<'static> {
    let mut repr = bare(MessageType::Offer);
    repr.transaction_id = 0x1200_0000;
    repr.secs = 5;
    repr.client_hardware_address = EthernetAddress([2, 0, 0, 0, 0, 0]);
    repr.client_ip = Ipv4Address::new(0, 0, 0, 3);
    repr.your_ip = Ipv4Address::new(0, 0, 0, 7);
    repr.server_ip = Ipv4Address::new(0, 0, 0, 4);
    repr.relay_agent_ip = Ipv4Address::new(0, 0, 0, 6);
    repr.broadcast = true;
    repr.router = Some(Ipv4Address::new(10, 0, 0, 2));
    repr.subnet_mask = Some(Ipv4Address::new(255, 0, 0, 0));
    repr.requested_ip = Some(Ipv4Address::new(10, 0, 0, 9));
    repr.client_identifier = Some(EthernetAddress([2, 3, 4, 5, 6, 7]));
    repr.server_identifier = Some(Ipv4Address::new(10, 0, 0, 1));
    repr.parameter_request_list = Some(&[1, 3]);
    repr.max_size = Some(1500);
    repr.lease_duration = Some(3600);
    repr.renew_duration = Some(1800);
    repr.rebind_duration = Some(3150);
    repr
}

#[test]
fn an_offer_with_all_that_a_client_takes() {
    let mut octets = packet(
        2,
        &[
            0x35, 1, 2, 0x36, 4, 10, 0, 0, 1, 3, 4, 10, 0, 0, 2, 1, 4, 255, 0, 0, 0, 0x33, 4, 0, 0,
            0x0e, 0x10, 0x3a, 4, 0, 0, 0x07, 0x08, 0x3b, 4, 0, 0, 0x0c, 0x4e, 0x37, 2, 1, 3, 0x39,
            2, 0x05, 0xdc, 0x32, 4, 10, 0, 0, 9, 0x3d, 7, 1, 2, 3, 4, 5, 6, 7, 0xff,
        ],
    );
    let octets = octets.as_mut_slice();
    set(octets, 4, 0x12);
    set(octets, 9, 5);
    set(octets, 10, 0x80);
    set(octets, 15, 3);
    set(octets, 19, 7);
    set(octets, 23, 4);
    set(octets, 27, 6);
    set(octets, 28, 2);
    compare_read(octets, &offered());
    compare_damaged(octets);
}

#[test]
fn a_mask_behind_a_thousand_bytes_of_padding() {
    let octets = padded_discover();
    check_held(octets.as_slice(), &[(1, Some(0xffff_ff00))]);
}
