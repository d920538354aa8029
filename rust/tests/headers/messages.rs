// Made from crates/tests_headers/src/messages.rt by rust/erase.
//! Messages of ICMPv4 worked from the pictures of the RFCs with their checksums.

use crate::testing::{prints, same, same_of, takes_writes};
use control_wire::Ipv4Address;
use control_wire::headers::Message;
use control_wire::headers::icmpv4::{
    AddressMask, ExtendedEchoReply, ExtendedEchoRequest, Timestamp,
};

// The octets of a buffer before it is written into.
const FILLS: &[u8] = &[0x00, 0xff, 0x2a, 0xa5];

// Checks that a message is read, prints this, and is written as it was, whatever the buffer held.
fn check(octets: &[u8], text: &str) {
    let read = Message::parse(octets);
    let Ok(message) = read else {
        return same_of(octets, read.err(), None);
    };
    prints(&message, text);
    let len = message.buffer_len();
    same_of(octets, len, octets.len());
    same_of(octets, len <= 64, true);
    for &fill in FILLS {
        let mut buffer = [fill; 64];
        message.emit_into(&mut buffer[..len]);
        same_of(fill, &buffer[..len], octets);
    }
}

#[test]
fn messages_that_are_read_and_written() {
    let rows: &[(&[u8], &str)] = &[
        // The time is 12:17:17.888.
        (
            &[
                0x0d, 0x00, 0xd9, 0xe7, 0x12, 0x34, 0x00, 0x01, 0x02, 0xa3, 0x04, 0x40, 0x00, 0x00,
                0x00, 0x00, 0x00, 0x00, 0x00, 0x00,
            ],
            "ICMPv4 timestamp id=4660 seq=1 originate=44237888 receive=0 transmit=0",
        ),
        (
            &[
                0x0e, 0x00, 0xca, 0xfc, 0x12, 0x34, 0x00, 0x01, 0x02, 0xa3, 0x04, 0x40, 0x02, 0xa3,
                0x04, 0x52, 0x02, 0xa3, 0x04, 0x53,
            ],
            "ICMPv4 timestamp reply id=4660 seq=1 originate=44237888 receive=44237906 transmit=44237907",
        ),
        (
            &[
                0x11, 0x00, 0x43, 0x2b, 0xab, 0xcd, 0x00, 0x07, 0x00, 0x00, 0x00, 0x00,
            ],
            "ICMPv4 address mask request id=43981 seq=7 mask=0.0.0.0",
        ),
        (
            &[
                0x12, 0x00, 0x43, 0x2a, 0xab, 0xcd, 0x00, 0x07, 0xff, 0xff, 0xff, 0x00,
            ],
            "ICMPv4 address mask reply id=43981 seq=7 mask=255.255.255.0",
        ),
        (
            &[0x0a, 0x00, 0xf5, 0xff, 0x00, 0x00, 0x00, 0x00],
            "ICMPv4 router solicitation",
        ),
        (
            &[
                0x09, 0x00, 0xe9, 0xf0, 0x02, 0x02, 0x07, 0x08, 0xc0, 0x00, 0x02, 0x01, 0x00, 0x00,
                0x00, 0x00, 0xc0, 0x00, 0x02, 0x02, 0x80, 0x00, 0x00, 0x00,
            ],
            "ICMPv4 router advertisement lifetime=1800 routers=2",
        ),
        // Entries of three words.
        (
            &[
                0x09, 0x00, 0x8f, 0x55, 0x01, 0x03, 0x07, 0x08, 0xc0, 0x00, 0x02, 0x01, 0xff, 0xff,
                0xff, 0xff, 0xde, 0xad, 0xbe, 0xef,
            ],
            "ICMPv4 router advertisement lifetime=1800 routers=1",
        ),
        // The interface "eth0" by its name (RFC 8335 section 2.1).
        (
            &[
                0x2a, 0x00, 0xd1, 0xfc, 0x01, 0x02, 0x03, 0x01, 0x20, 0x00, 0x0f, 0x52, 0x00, 0x08,
                0x03, 0x01, 0x65, 0x74, 0x68, 0x30,
            ],
            "ICMPv4 extended echo request id=258 seq=3 local=true len=12",
        ),
        (
            &[0x2a, 0x00, 0xd0, 0xfd, 0x01, 0x02, 0x04, 0x00],
            "ICMPv4 extended echo request id=258 seq=4 local=false len=0",
        ),
        (
            &[0x2b, 0x00, 0xd0, 0xb7, 0x01, 0x02, 0x03, 0x46],
            "ICMPv4 extended echo reply code=0 id=258 seq=3 state=2 active=true ipv4=true ipv6=false",
        ),
        (
            &[0x2b, 0x00, 0xd0, 0xd9, 0x01, 0x02, 0x03, 0x24],
            "ICMPv4 extended echo reply code=0 id=258 seq=3 state=1 active=true ipv4=false ipv6=false",
        ),
        (
            &[0x2b, 0x02, 0xd0, 0xfb, 0x01, 0x02, 0x03, 0x00],
            "ICMPv4 extended echo reply code=2 id=258 seq=3 state=0 active=false ipv4=false ipv6=false",
        ),
        (
            &[0x2b, 0x04, 0xd5, 0x13, 0xff, 0xff, 0xff, 0xe7],
            "ICMPv4 extended echo reply code=4 id=65535 seq=255 state=7 active=true ipv4=true ipv6=true",
        ),
    ];
    for (octets, text) in rows {
        check(octets, text);
    }
}

#[test]
fn fields_of_messages() {
    let times = Timestamp {
        ident: 0x1234,
        seq_no: 1,
        originate: 44_237_888,
        receive: 44_237_906,
        transmit: 44_237_907,
    };
    let mask = AddressMask {
        ident: 0xabcd,
        seq_no: 7,
        mask: Ipv4Address::new(255, 255, 255, 0),
    };
    let request = ExtendedEchoRequest {
        ident: 0x0102,
        seq_no: 3,
        local: true,
        data: b"\x20\x00\x0f\x52\x00\x08\x03\x01eth0",
    };
    let reply = ExtendedEchoReply {
        code: 0,
        ident: 0x0102,
        seq_no: 3,
        state: 2,
        active: true,
        ipv4: true,
        ipv6: false,
    };
    let rows: &[(&[u8], Message<'_>)] = &[
        (
            b"\x0e\x00\xca\xfc\x12\x34\x00\x01\x02\xa3\x04\x40\x02\xa3\x04\x52\x02\xa3\x04\x53",
            Message::TimestampReply(times),
        ),
        (
            b"\x12\x00\x43\x2a\xab\xcd\x00\x07\xff\xff\xff\x00",
            Message::AddressMaskReply(mask),
        ),
        (
            b"\x2a\x00\xd1\xfc\x01\x02\x03\x01\x20\x00\x0f\x52\x00\x08\x03\x01eth0",
            Message::ExtendedEchoRequest(request),
        ),
        (
            b"\x2b\x00\xd0\xb7\x01\x02\x03\x46",
            Message::ExtendedEchoReply(reply),
        ),
    ];
    for (octets, message) in rows {
        same_of(octets, Message::parse(octets), Ok(*message));
    }
}

// What is reserved, the code of an extended request, and what follows the fields are not looked at.
#[test]
fn messages_with_more_than_their_fields() {
    // A message, and the same with more.
    let rows: &[(&[u8], &[u8])] = &[
        (
            b"\x0a\x00\xf5\xff\x00\x00\x00\x00",
            b"\x0a\x00\xf5\xfd\x00\x00\x00\x02",
        ),
        (
            b"\x2a\x00\xd0\xfd\x01\x02\x04\x00",
            b"\x2a\x00\xcf\xff\x01\x02\x04\xfe",
        ),
        (
            b"\x2a\x00\xd0\xfd\x01\x02\x04\x00",
            b"\x2a\x07\xd0\xf6\x01\x02\x04\x00",
        ),
        (
            b"\x2b\x00\xd0\xb7\x01\x02\x03\x46",
            b"\x2b\x00\xd0\x9f\x01\x02\x03\x5e",
        ),
        (
            b"\x12\x00\x43\x2a\xab\xcd\x00\x07\xff\xff\xff\x00",
            b"\x12\x00\x43\x2a\xab\xcd\x00\x07\xff\xff\xff\x00\x00\x00",
        ),
        (
            b"\x09\x00\x2c\xf3\x01\x02\x07\x08\xc0\x00\x02\x01\x00\x00\x00\x01",
            b"\x09\x00\x4e\x45\x01\x02\x07\x08\xc0\x00\x02\x01\x00\x00\x00\x01\xde\xad",
        ),
    ];
    for (octets, more) in rows {
        same_of(octets, Message::parse(octets).is_ok(), true);
        same_of(more, Message::parse(more), Message::parse(octets));
    }
}

// The checksum is of what follows the message too.
#[test]
fn a_message_in_front_of_other_octets() {
    let mut octets = [0xa5; 10];
    Message::RouterSolicitation.emit_into(&mut octets);
    let wanted = [0x0a, 0x00, 0x50, 0x5a, 0x00, 0x00, 0x00, 0x00, 0xa5, 0xa5];
    same(octets, wanted);
    let read = Message::parse(&octets);
    same(read, Ok(Message::RouterSolicitation));
    takes_writes(&Message::RouterSolicitation, 1);
}
