// Made from crates/tests_dhcp_dns/src/dhcp/dhcpv4_refusal.rt by rust/erase.
use crate::dhcp::dhcpv4::packet;
use crate::dhcp::plain_reader::{compare_damaged, set};
use crate::testing::{prints, same, same_of, takes_writes};
use control_wire::dhcpv4::{MessageType, OpCode, Packet, Refusal, Repr};

// Why a packet is refused.
fn told(packet: &[u8]) -> Option<Refusal> {
    Repr::refusal(&Packet::new_unchecked(packet))
}

#[test]
fn why_options_are_refused() {
    // An operation and options, and the check that fails first. In each of these packets every byte is damaged in
    // turn, and each shorter part is read: a reason is told exactly where the parser refuses.
    const ROWS: &[(u8, &[u8], Option<Refusal>)] = &[
        (1, &[0x35, 1, 1, 0xff], None),
        (0, &[0x35, 1, 34, 0xff], None),
        (
            1,
            &[
                0x3d, 7, 1, 2, 0, 0, 0, 0, 1, 0x3d, 7, 6, 2, 0, 0, 0, 0, 1, 0x3d, 7, 0, 2, 0, 0, 0,
                0, 1,
            ],
            Some(Refusal::ClientIdentifier(6)),
        ),
        (
            1,
            &[0x35, 1, 2, 0xff],
            Some(Refusal::Operation(MessageType::Offer, OpCode::Request)),
        ),
        (2, &[0x35, 1, 5, 0x35, 1, 1, 0xff, 0x35, 1, 5], None),
        (
            2,
            &[0x35, 2, 5, 5, 0x35, 1, 1, 12],
            Some(Refusal::Operation(MessageType::Discover, OpCode::Reply)),
        ),
        (
            1,
            &[0x35, 1, 34],
            Some(Refusal::Operation(
                MessageType::Unknown(34),
                OpCode::Request,
            )),
        ),
        (
            1,
            &[0x35, 1, 2, 0x35, 2, 1, 1, 0xff],
            Some(Refusal::MessageTypeLen(2)),
        ),
        (1, &[0x35, 0], Some(Refusal::MessageTypeLen(0))),
        (1, &[12], Some(Refusal::OptionCut(12))),
        (
            1,
            &[0, 13, 1, 255, 12, 2, 0x61],
            Some(Refusal::OptionCut(12)),
        ),
        (1, &[12, 1, 0x61, 0x35, 1], Some(Refusal::OptionCut(0x35))),
        (1, &[], Some(Refusal::NoMessageType)),
        (1, &[0, 0], Some(Refusal::NoMessageType)),
        (
            1,
            &[12, 1, 0x61, 0xff, 0x35, 1],
            Some(Refusal::NoMessageType),
        ),
    ];
    for &(op, options, wanted) in ROWS {
        let mut octets = packet(op, options);
        same_of((op, options), told(octets.as_slice()), wanted);
        compare_damaged(octets.as_mut_slice());
    }
}

#[test]
fn why_headers_are_refused() {
    // Bytes by their places, and the check that fails first.
    const ROWS: &[(&[(usize, u8)], Refusal)] = &[
        (&[(1, 6)], Refusal::HardwareType(6)),
        (&[(1, 0), (2, 16), (236, 0)], Refusal::HardwareType(0)),
        (&[(2, 16)], Refusal::HardwareLen(16)),
        (&[(2, 5), (239, 0)], Refusal::HardwareLen(5)),
        (&[(236, 0x62)], Refusal::MagicCookie),
        (&[(239, 0x64), (240, 0)], Refusal::MagicCookie),
    ];
    for &(bytes, wanted) in ROWS {
        let mut octets = packet(1, &[0x35, 1, 1, 0xff]);
        for &(place, byte) in bytes {
            set(octets.as_mut_slice(), place, byte);
        }
        same_of(bytes, told(octets.as_slice()), Some(wanted));
        let read = Repr::parse_or_refusal(&Packet::new_unchecked(octets.as_slice()));
        same_of(bytes, read.err(), Some(wanted));
    }
    same(told(&[1; 239]), Some(Refusal::Short));
    same(told(&[]), Some(Refusal::Short));
}

#[test]
fn reasons_as_texts() {
    // A reason, its text, and in how many writes it is printed.
    const ROWS: &[(Refusal, &str, u32)] = &[
        (Refusal::Short, "fewer than 240 bytes", 1),
        (
            Refusal::HardwareType(6),
            "hardware type 6 is not Ethernet",
            3,
        ),
        (
            Refusal::HardwareLen(16),
            "a hardware address has 16 bytes, not 6",
            3,
        ),
        (Refusal::MagicCookie, "the magic cookie is missing", 1),
        (
            Refusal::ClientIdentifier(0),
            "the client identifier is of hardware type 0, not Ethernet",
            3,
        ),
        (
            Refusal::Operation(MessageType::Offer, OpCode::Request),
            "message type OFFER does not go with BOOTREQUEST",
            4,
        ),
        (
            Refusal::Operation(MessageType::Unknown(34), OpCode::Reply),
            "message type unknown 34 does not go with BOOTREPLY",
            5,
        ),
        (
            Refusal::MessageTypeLen(2),
            "the message type has 2 bytes, not 1",
            3,
        ),
        (Refusal::OptionCut(53), "option 53 is cut", 3),
        (Refusal::NoMessageType, "there is no message type", 1),
    ];
    for (refusal, text, writes) in ROWS {
        prints(refusal, text);
        takes_writes(refusal, *writes);
    }
}
