// Made from crates/tests_headers/src/icmpv6.rt by rust/erase.
//! Messages of ICMPv6: a query that a program sent, and others worked from the pictures of the RFCs with their
//! checksums.

use crate::testing::{prints, same, same_of, takes_writes};
use control_wire::Ipv6Address;
use control_wire::headers::icmpv6::{
    ExtendedEchoReply, ExtendedEchoRequest, Message, NodeInformation, Refusal,
};

// The octets of a buffer before it is written into.
const FILLS: &[u8] = &[0x00, 0xff, 0x2a, 0xa5];

// The address that the packets come from, and that they go to.
fn source() -> Ipv6Address {
    Ipv6Address::new(0x2001, 0xdb8, 1, 0, 0, 0, 0, 7)
}

fn destination() -> Ipv6Address {
    Ipv6Address::new(0x2001, 0xdb8, 1, 0, 0, 0, 0, 1)
}

// The message between these addresses.
fn parse(octets: &[u8]) -> Result<Message<'_>, Refusal> {
    Message::parse(octets, &source(), &destination())
}

// Checks that a message is read, prints this, and is written as it was, whatever the buffer held.
fn check(octets: &[u8], text: &str) {
    let read = Message::parse(octets, &source(), &destination());
    let Ok(message) = read else {
        return same_of(octets, read.err(), None);
    };
    prints(&message, text);
    let len = message.buffer_len();
    same_of(octets, len, octets.len());
    same_of(octets, len <= 64, true);
    for &fill in FILLS {
        let mut buffer = [fill; 64];
        message.emit_into(&mut buffer[..len], &source(), &destination());
        same_of(fill, &buffer[..len], octets);
    }
}

#[test]
fn messages_of_icmpv6_that_are_read_and_written() {
    let rows: &[(&[u8], &str)] = &[
        // From ping of iputils, which asks for the name of a node by its address.
        (
            b"\x8b\x00\xe4\x8d\x00\x02\x00\x00\x00\x01\xdd\xc6\x87\xb9\xa1\x5c\
              \x20\x01\x0d\xb8\x00\x01\x00\x00\x00\x00\x00\x00\x00\x00\x00\x01",
            "ICMPv6 node information query code=0 qtype=2 flags=0 nonce=525319727063388 len=16",
        ),
        (
            b"\x8b\x01\x19\x38\x00\x00\x00\x00\x00\x00\x00\x00\x00\x00\x00\x00",
            "ICMPv6 node information query code=1 qtype=0 flags=0 nonce=0 len=0",
        ),
        // The part "host" of a name.
        (
            b"\x8b\x01\x93\x2d\x00\x02\x00\x00\x01\x23\x45\x67\x89\xab\xcd\xef\x04host\x00\x00",
            "ICMPv6 node information query code=1 qtype=2 flags=0 nonce=81985529216486895 len=7",
        ),
        (
            b"\x8b\x02\x57\x10\x00\x03\x00\x1e\xff\xff\xff\xff\xff\xff\xff\xff\xc0\x00\x02\x01",
            "ICMPv6 node information query code=2 qtype=3 flags=30 nonce=18446744073709551615 len=4",
        ),
        // A time to live of zero, and the name.
        (
            b"\x8c\x00\x92\x2a\x00\x02\x00\x00\x01\x23\x45\x67\x89\xab\xcd\xef\x00\x00\x00\x00\x04host\x00\x00",
            "ICMPv6 node information reply code=0 qtype=2 flags=0 nonce=81985529216486895 len=11",
        ),
        (
            b"\x8c\x01\x79\xd1\x00\x03\x00\x3e\x01\x23\x45\x67\x89\xab\xcd\xef",
            "ICMPv6 node information reply code=1 qtype=3 flags=62 nonce=81985529216486895 len=0",
        ),
        (
            b"\x8c\x02\x18\x37\xff\xff\xff\xff\xff\xff\xff\xff\xff\xff\xff\xff",
            "ICMPv6 node information reply code=2 qtype=65535 flags=65535 nonce=18446744073709551615 len=0",
        ),
        // The interface "eth0" by its name (RFC 8335 section 2.1).
        (
            b"\xa0\x00\x00\x32\x01\x02\x03\x01\x20\x00\x0f\x52\x00\x08\x03\x01eth0",
            "ICMPv6 extended echo request id=258 seq=3 local=true len=12",
        ),
        (
            b"\xa0\x00\xff\x3e\x01\x02\x04\x00",
            "ICMPv6 extended echo request id=258 seq=4 local=false len=0",
        ),
        (
            b"\xa1\x00\xfe\xf8\x01\x02\x03\x46",
            "ICMPv6 extended echo reply code=0 id=258 seq=3 state=2 active=true ipv4=true ipv6=false",
        ),
        (
            b"\xa1\x00\xff\x1a\x01\x02\x03\x24",
            "ICMPv6 extended echo reply code=0 id=258 seq=3 state=1 active=true ipv4=false ipv6=false",
        ),
        (
            b"\xa1\x04\x03\x55\xff\xff\xff\xe7",
            "ICMPv6 extended echo reply code=4 id=65535 seq=255 state=7 active=true ipv4=true ipv6=true",
        ),
    ];
    for (octets, text) in rows {
        check(octets, text);
    }
}

#[test]
fn fields_of_messages_of_icmpv6() {
    let query = NodeInformation {
        code: 2,
        qtype: 3,
        flags: 0x1e,
        nonce: 0xffff_ffff_ffff_ffff,
        data: &[192, 0, 2, 1],
    };
    let reply = NodeInformation {
        code: 1,
        qtype: 3,
        flags: 0x3e,
        nonce: 0x0123_4567_89ab_cdef,
        data: &[],
    };
    let request = ExtendedEchoRequest {
        ident: 0x0102,
        seq_no: 3,
        local: true,
        data: b"\x20\x00\x0f\x52\x00\x08\x03\x01eth0",
    };
    let answer = ExtendedEchoReply {
        code: 0,
        ident: 0x0102,
        seq_no: 3,
        state: 2,
        active: true,
        ipv4: true,
        ipv6: false,
    };
    let rows: &[(&[u8], Message<'_>)] = &[
        (
            b"\x8b\x02\x57\x10\x00\x03\x00\x1e\xff\xff\xff\xff\xff\xff\xff\xff\xc0\x00\x02\x01",
            Message::NodeInformationQuery(query),
        ),
        (
            b"\x8c\x01\x79\xd1\x00\x03\x00\x3e\x01\x23\x45\x67\x89\xab\xcd\xef",
            Message::NodeInformationReply(reply),
        ),
        (
            b"\xa0\x00\x00\x32\x01\x02\x03\x01\x20\x00\x0f\x52\x00\x08\x03\x01eth0",
            Message::ExtendedEchoRequest(request),
        ),
        (
            b"\xa1\x00\xfe\xf8\x01\x02\x03\x46",
            Message::ExtendedEchoReply(answer),
        ),
    ];
    for (octets, message) in rows {
        same_of(octets, parse(octets), Ok(*message));
    }
}

// What is reserved, the code of a request, and what follows a reply are not looked at.
#[test]
fn messages_of_icmpv6_with_more_than_their_fields() {
    // A message, and the same with more.
    let rows: &[(&[u8], &[u8])] = &[
        (
            b"\xa0\x00\xff\x3e\x01\x02\x04\x00",
            b"\xa0\x00\xfe\x40\x01\x02\x04\xfe",
        ),
        (
            b"\xa0\x00\xff\x3e\x01\x02\x04\x00",
            b"\xa0\x07\xff\x37\x01\x02\x04\x00",
        ),
        (
            b"\xa1\x00\xfe\xf8\x01\x02\x03\x46",
            b"\xa1\x00\xfe\xe0\x01\x02\x03\x5e",
        ),
        (
            b"\xa1\x00\xfe\xf8\x01\x02\x03\x46",
            b"\xa1\x00\xfc\xf6\x01\x02\x03\x46\x00\xff\x01",
        ),
    ];
    for (octets, more) in rows {
        same_of(octets, parse(octets).is_ok(), true);
        same_of(more, parse(more), parse(octets));
    }
}

// The checksum is of what follows the message too.
#[test]
fn a_message_of_icmpv6_in_front_of_other_octets() {
    let mut octets = [0xa5; 10];
    let message = Message::ExtendedEchoReply(ExtendedEchoReply {
        code: 0,
        ident: 0x0102,
        seq_no: 3,
        state: 2,
        active: true,
        ipv4: true,
        ipv6: false,
    });
    message.emit_into(&mut octets, &source(), &destination());
    let wanted = [0xa1, 0x00, 0x59, 0x51, 0x01, 0x02, 0x03, 0x46, 0xa5, 0xa5];
    same(octets, wanted);
    same(parse(&octets), Ok(message));
    takes_writes(&message, 15);
}

#[test]
fn what_is_refused_of_messages_of_icmpv6() {
    let rows: &[(&[u8], Refusal)] = &[
        (&[0x00; 7], Refusal::Short),
        (b"\xa0\x00\xff\x3f\x01\x02\x04\x00", Refusal::Checksum),
        // A checksum without the addresses.
        (b"\xa0\x00\x5a\xfd\x01\x02\x04\x00", Refusal::Checksum),
        // An echo, and the types beside those that are read.
        (
            b"\x80\x00\x24\x3f\x00\x01\x00\x01",
            Refusal::UnknownType(128),
        ),
        (
            b"\x8a\x00\x1a\x41\x00\x00\x00\x00",
            Refusal::UnknownType(138),
        ),
        (
            b"\x8d\x00\x17\x41\x00\x00\x00\x00",
            Refusal::UnknownType(141),
        ),
        (
            b"\xa2\x00\x02\x41\x00\x00\x00\x00",
            Refusal::UnknownType(162),
        ),
        // Of 15 octets, and of 8.
        (
            b"\x8b\x01\x19\x39\x00\x00\x00\x00\x00\x00\x00\x00\x00\x00\x00",
            Refusal::Length,
        ),
        (b"\x8c\x00\x18\x41\x00\x00\x00\x00", Refusal::Length),
    ];
    for (octets, refusal) in rows {
        same_of(octets, parse(octets).err(), Some(*refusal));
    }
    // The same message between other addresses.
    let octets = b"\xa0\x00\xff\x3e\x01\x02\x04\x00";
    same(parse(octets).err(), None);
    let other = Message::parse(octets, &source(), &source()).err();
    same(other, Some(Refusal::Checksum));
}

#[test]
fn texts_of_reasons_of_messages_of_icmpv6() {
    let rows: &[(Refusal, &str)] = &[
        (Refusal::Short, "fewer than 8 bytes"),
        (Refusal::Checksum, "the checksum does not hold"),
        (Refusal::UnknownType(128), "type 128 is not read"),
        (
            Refusal::Length,
            "fewer bytes than a message of this type has",
        ),
    ];
    for (refusal, text) in rows {
        prints(refusal, text);
    }
    takes_writes(&Refusal::Length, 1);
}
