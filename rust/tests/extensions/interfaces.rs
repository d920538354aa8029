// Made from crates/tests_extensions/src/interfaces.rt by rust/erase.
//! What objects say of interfaces, worked from the pictures of RFC 5837 sections 4.1 to 4.3.

use crate::testing::{prints, same_of, takes_writes};
use control_wire::extensions::{
    Family, InterfaceAddress, InterfaceInformation, InterfaceRefusal, Role,
};

// The octets of a buffer before it is written into.
const FILLS: &[u8] = &[0x00, 0xff, 0x2a, 0xa5];

// An incoming interface of which nothing else is said.
const INCOMING: InterfaceInformation<'static> = InterfaceInformation {
    role: Role::Incoming,
    index: None,
    address: None,
    name: None,
    mtu: None,
};

// The longest name, with its length.
const LONG_NAME: &[u8] = b"\x40aaaaaaaaaaaaaaaaaaaaaaaaaaaaaaaaaaaaaaaaaaaaaaaaaaaaaaaaaaaaaaa";

// Checks that a payload is read as this, which is written with this C-Type and as these octets.
fn check_interface(
    (c_type, payload): (u8, &[u8]),
    interface: InterfaceInformation<'_>,
    (written_c_type, written): (u8, &[u8]),
) {
    let read = InterfaceInformation::parse(c_type, payload);
    same_of(payload, read, Ok(interface));
    let Ok(interface) = read else {
        return;
    };
    same_of(payload, interface.c_type(), written_c_type);
    let len = interface.buffer_len();
    same_of(payload, len, written.len());
    for &fill in FILLS {
        let mut buffer = [fill; 72];
        if len <= 72 {
            interface.emit_into(&mut buffer);
            same_of(fill, &buffer[..len], written);
            for &octet in &buffer[len..] {
                same_of(fill, octet, fill);
            }
        }
    }
}

#[test]
fn interfaces_are_written_as_they_were() {
    let rows: &[(u8, &[u8], InterfaceInformation<'_>)] = &[
        (
            0x0f,
            &[
                0x00, 0x00, 0x00, 0x0f, 0x00, 0x01, 0x00, 0x00, 0xc0, 0x00, 0x02, 0x01, 0x08, 0x47,
                0x69, 0x30, 0x2f, 0x31, 0x00, 0x00, 0x00, 0x00, 0x05, 0xdc,
            ],
            InterfaceInformation {
                role: Role::Incoming,
                index: Some(15),
                address: Some(InterfaceAddress {
                    family: Family::V4,
                    octets: &[192, 0, 2, 1],
                }),
                name: Some(b"Gi0/1"),
                mtu: Some(1500),
            },
        ),
        (
            0x84,
            &[
                0x00, 0x02, 0x00, 0x00, 0x20, 0x01, 0x0d, 0xb8, 0x00, 0x00, 0x00, 0x00, 0x00, 0x00,
                0x00, 0x00, 0x00, 0x00, 0x00, 0x01,
            ],
            InterfaceInformation {
                role: Role::Outgoing,
                address: Some(InterfaceAddress {
                    family: Family::V6,
                    octets: &[
                        0x20, 0x01, 0x0d, 0xb8, 0x00, 0x00, 0x00, 0x00, 0x00, 0x00, 0x00, 0x00,
                        0x00, 0x00, 0x00, 0x01,
                    ],
                }),
                ..INCOMING
            },
        ),
        (
            0xc0,
            &[],
            InterfaceInformation {
                role: Role::NextHop,
                ..INCOMING
            },
        ),
        (
            0x42,
            &[0x04, 0x61, 0x62, 0x63],
            InterfaceInformation {
                role: Role::SubIp,
                name: Some(b"abc"),
                ..INCOMING
            },
        ),
        (
            0x02,
            &[0x04, 0x00, 0x00, 0x00],
            InterfaceInformation {
                name: Some(b""),
                ..INCOMING
            },
        ),
        (
            0x02,
            LONG_NAME,
            InterfaceInformation {
                name: Some(b"aaaaaaaaaaaaaaaaaaaaaaaaaaaaaaaaaaaaaaaaaaaaaaaaaaaaaaaaaaaaaaa"),
                ..INCOMING
            },
        ),
    ];
    for (c_type, payload, interface) in rows {
        check_interface((*c_type, payload), *interface, (*c_type, payload));
    }
}

// The reserved bits of the C-Type and the reserved bytes before an address, what follows the parts, and the length of a
// name that is padded more than it needs.
#[test]
fn what_is_not_looked_at_is_not_written_again() {
    let index = InterfaceInformation {
        index: Some(1),
        ..INCOMING
    };
    check_interface(
        (0x38, &[0x00, 0x00, 0x00, 0x01, 0xff]),
        index,
        (0x08, &[0x00, 0x00, 0x00, 0x01]),
    );
    let name = InterfaceInformation {
        name: Some(b"a"),
        ..INCOMING
    };
    check_interface(
        (0x02, &[0x08, 0x61, 0x00, 0x00, 0x00, 0x00, 0x00, 0x00]),
        name,
        (0x02, &[0x04, 0x61, 0x00, 0x00]),
    );
    let address = InterfaceInformation {
        address: Some(InterfaceAddress {
            family: Family::V4,
            octets: &[192, 0, 2, 1],
        }),
        ..INCOMING
    };
    check_interface(
        (0x04, &[0x00, 0x01, 0xff, 0xff, 0xc0, 0x00, 0x02, 0x01]),
        address,
        (0x04, &[0x00, 0x01, 0x00, 0x00, 0xc0, 0x00, 0x02, 0x01]),
    );
}

#[test]
fn what_is_refused_of_an_interface() {
    let rows: &[(u8, &[u8], InterfaceRefusal)] = &[
        (
            0x04,
            &[
                0x00, 0x03, 0x00, 0x00, 0x00, 0x00, 0x00, 0x00, 0x00, 0x00, 0x00, 0x00, 0x00, 0x00,
                0x00, 0x00, 0x00, 0x00, 0x00, 0x00,
            ],
            InterfaceRefusal::AddressFamily(3),
        ),
        (0x04, &[0x00, 0x01, 0x00], InterfaceRefusal::Cut),
        (
            0x04,
            &[0x00, 0x01, 0x00, 0x00, 0xc0, 0x00, 0x02],
            InterfaceRefusal::Cut,
        ),
        (
            0x02,
            &[0x06, 0x61, 0x62, 0x63, 0x00, 0x00],
            InterfaceRefusal::NameLength(6),
        ),
        (0x02, &[0x00], InterfaceRefusal::NameLength(0)),
        (0x02, &[0x44], InterfaceRefusal::NameLength(68)),
        (0x02, &[0x08, 0x61, 0x62, 0x63], InterfaceRefusal::Cut),
        (0x02, &[], InterfaceRefusal::Cut),
        (
            0x09,
            &[0x00, 0x00, 0x00, 0x01, 0x00, 0x00],
            InterfaceRefusal::Cut,
        ),
    ];
    for (c_type, payload, refusal) in rows {
        let read = InterfaceInformation::parse(*c_type, payload);
        same_of(payload, read, Err(*refusal));
    }
}

#[test]
fn texts_of_roles_and_refusals() {
    let rows: &[(Role, &str)] = &[
        (Role::Incoming, "incoming"),
        (Role::SubIp, "below IP"),
        (Role::Outgoing, "outgoing"),
        (Role::NextHop, "next hop"),
    ];
    for (role, text) in rows {
        prints(role, text);
    }
    takes_writes(&Role::NextHop, 1);
    let rows: &[(InterfaceRefusal, &str)] = &[
        (
            InterfaceRefusal::Cut,
            "the object about the interface is cut",
        ),
        (
            InterfaceRefusal::AddressFamily(3),
            "the interface has an address of family 3",
        ),
        (
            InterfaceRefusal::NameLength(68),
            "the name of the interface has a length of 68",
        ),
    ];
    for (refusal, text) in rows {
        prints(refusal, text);
    }
    takes_writes(&InterfaceRefusal::AddressFamily(3), 2);
}
