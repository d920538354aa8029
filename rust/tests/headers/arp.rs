// Made from crates/tests_headers/src/arp.rt by rust/erase.
//! Packets of ARP: those of two hosts that look for each other, as tcpdump shows them.

use crate::testing::{prints, same, same_of, takes_writes};
use control_wire::headers::arp::{LEN, Operation, Refusal, Repr};
use control_wire::{EthernetAddress, Ipv4Address};

// The octets of a buffer before it is written into.
const FILLS: &[u8] = &[0x00, 0xff, 0x2a, 0xa5];

// 192.0.2.50 looks for 192.0.2.9.
const REQUEST: [u8; LEN] = [
    0x00, 0x01, 0x08, 0x00, 0x06, 0x04, 0x00, 0x01, 0x02, 0x00, 0x00, 0x00, 0x00, 0x07, 0xc0, 0x00,
    0x02, 0x32, 0x00, 0x00, 0x00, 0x00, 0x00, 0x00, 0xc0, 0x00, 0x02, 0x09,
];

// It answers.
const REPLY: [u8; LEN] = [
    0x00, 0x01, 0x08, 0x00, 0x06, 0x04, 0x00, 0x02, 0x02, 0x00, 0x00, 0x00, 0x00, 0x09, 0xc0, 0x00,
    0x02, 0x09, 0x02, 0x00, 0x00, 0x00, 0x00, 0x07, 0xc0, 0x00, 0x02, 0x32,
];

// Checks that a packet before its padding is this value, prints this, and is written over the front of any octets.
fn check(packet: &[u8; LEN], value: Repr, text: &str) {
    let mut padded = [0x5a; 46];
    padded[..LEN].copy_from_slice(packet);
    same(Repr::parse(&padded), Ok(value));
    same(Repr::parse(packet), Ok(value));
    prints(&value, text);
    same(value.buffer_len(), LEN);
    for &fill in FILLS {
        let mut octets = [fill; 30];
        value.emit_into(&mut octets);
        let mut wanted = [fill; 30];
        wanted[..LEN].copy_from_slice(packet);
        same_of(fill, octets, wanted);
    }
}

#[test]
fn two_hosts_look_for_each_other() {
    let request = Repr {
        operation: Operation::Request,
        source_hardware_addr: EthernetAddress([2, 0, 0, 0, 0, 7]),
        source_protocol_addr: Ipv4Address::new(192, 0, 2, 50),
        target_hardware_addr: EthernetAddress([0; 6]),
        target_protocol_addr: Ipv4Address::new(192, 0, 2, 9),
    };
    check(
        &REQUEST,
        request,
        "ARP request 192.0.2.50 (02:00:00:00:00:07) > 192.0.2.9 (00:00:00:00:00:00)",
    );
    let reply = Repr {
        operation: Operation::Reply,
        source_hardware_addr: EthernetAddress([2, 0, 0, 0, 0, 9]),
        source_protocol_addr: Ipv4Address::new(192, 0, 2, 9),
        target_hardware_addr: EthernetAddress([2, 0, 0, 0, 0, 7]),
        target_protocol_addr: Ipv4Address::new(192, 0, 2, 50),
    };
    check(
        &REPLY,
        reply,
        "ARP reply 192.0.2.9 (02:00:00:00:00:09) > 192.0.2.50 (02:00:00:00:00:07)",
    );
}

#[test]
fn operations_by_their_numbers() {
    let rows: &[(u16, Operation, &str)] = &[
        (1, Operation::Request, "request"),
        (2, Operation::Reply, "reply"),
        (0, Operation::Unknown(0), "operation 0"),
        (3, Operation::Unknown(3), "operation 3"),
        (0x0102, Operation::Unknown(258), "operation 258"),
        (0xffff, Operation::Unknown(65_535), "operation 65535"),
    ];
    for &(number, operation, text) in rows {
        same_of(number, Operation::from(number), operation);
        same_of(number, u16::from(operation), number);
        prints(&operation, text);
        let [high, low] = number.to_be_bytes();
        let mut octets = REQUEST;
        octets[6] = high;
        octets[7] = low;
        let read = Repr::parse(&octets).map(|repr| repr.operation);
        same_of(number, read, Ok(operation));
    }
    takes_writes(&Operation::Reply, 1);
}

#[test]
fn what_is_refused_of_packets_of_arp() {
    // An octet of the request, another value of it, and the reason.
    let rows: &[(usize, u8, Refusal)] = &[
        (0, 0x01, Refusal::HardwareType(0x0101)),
        (1, 0x06, Refusal::HardwareType(6)),
        (2, 0x86, Refusal::ProtocolType(0x8600)),
        (3, 0x06, Refusal::ProtocolType(0x0806)),
        (4, 0x08, Refusal::HardwareLen(8)),
        (5, 0x10, Refusal::ProtocolLen(16)),
    ];
    for &(at, octet, refusal) in rows {
        let mut octets = REQUEST;
        if at < LEN {
            octets[at] = octet;
        }
        same_of((at, octet), Repr::parse(&octets), Err(refusal));
    }
    for len in 0..LEN {
        same_of(len, Repr::parse(&REQUEST[..len]), Err(Refusal::Short));
    }
}

#[test]
fn texts_of_reasons_of_packets_of_arp() {
    let rows: &[(Refusal, &str)] = &[
        (Refusal::Short, "fewer than 28 bytes"),
        (Refusal::HardwareType(6), "hardware type 6 is not Ethernet"),
        (
            Refusal::ProtocolType(0x86dd),
            "protocol type 0x86dd is not IPv4",
        ),
        (
            Refusal::HardwareLen(8),
            "a hardware address of 8 bytes is not of 6",
        ),
        (
            Refusal::ProtocolLen(16),
            "a protocol address of 16 bytes is not of 4",
        ),
    ];
    for (refusal, text) in rows {
        prints(refusal, text);
    }
    takes_writes(&Refusal::Short, 1);
}
