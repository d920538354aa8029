// Made from crates/tests_neighbors/src/names.rt by rust/erase.
//! The domain names of search lists in turn (RFC 8106 section 5.2), and the addresses of DNS servers (section 5.1).

#[allow(unused_imports)]
use crate::rattle_std::prelude::*;
use crate::testing::{prints, same, same_of, takes_writes};
use control_wire::Ipv6Address;
use control_wire::neighbors::{NameRefusal, Names, Servers};

// Checks that the octets give these answers in turn, and no more.
fn check_names(octets: &[u8], answers: &[Result<&[u8], NameRefusal>]) {
    let names = Names::new(octets);
    same(names.octets(), octets);
    let mut turns = names.iter();
    for answer in answers {
        same_of(octets, turns.next(), Some(*answer));
    }
    same_of(octets, turns.next(), None);
}

#[test]
fn names_in_turn() {
    let rows: &[(&[u8], &[Result<&[u8], NameRefusal>])] = &[
        (
            b"\x07example\x03com\0\x03lab\0\0\0\0\0\0\0",
            &[Ok(b"\x07example\x03com\0"), Ok(b"\x03lab\0")],
        ),
        (
            b"\x03lab\0\xc0\x0c",
            &[Ok(b"\x03lab\0"), Err(NameRefusal::Label(192))],
        ),
        (b"\x03lab", &[Err(NameRefusal::Cut)]),
        (b"\x04lab", &[Err(NameRefusal::Cut)]),
        (b"\0\x03lab\0", &[]),
        (&[], &[]),
    ];
    for (octets, answers) in rows {
        check_names(octets, answers);
    }
}

#[test]
fn a_copy_of_names_goes_on_from_the_same_place() {
    let mut names = Names::new(b"\x03lab\0\x03com\0").iter();
    same(names.next(), Some(Ok(&b"\x03lab\0"[..])));
    let Ok(mut copy) = names.try_clone() else {
        return same("no copy", "a copy");
    };
    same(copy.next(), Some(Ok(&b"\x03com\0"[..])));
    same(copy.next(), None);
    same(names.next(), Some(Ok(&b"\x03com\0"[..])));
}

// A label has 63 octets at most (RFC 1035 section 3.1).
#[test]
fn labels_of_63_and_64_octets() {
    let mut octets = [b'a'; 65];
    octets[0] = 64;
    check_names(&octets, &[Err(NameRefusal::Label(64))]);
    octets[0] = 63;
    octets[64] = 0;
    check_names(&octets, &[Ok(&octets)]);
}

#[test]
fn texts_of_what_is_refused_as_a_name() {
    let label = NameRefusal::Label(192);
    prints(&label, "a label of length 192");
    takes_writes(&label, 2);
    let cut = NameRefusal::Cut;
    prints(&cut, "the octets end before the name does");
    takes_writes(&cut, 1);
}

// Fewer octets than an address has are ignored at the end.
#[test]
fn servers_in_turn() {
    let octets = [
        0x20, 0x01, 0x0d, 0xb8, 0x00, 0x00, 0x00, 0x00, 0x00, 0x00, 0x00, 0x00, 0x00, 0x00, 0x00,
        0x53, 0x20, 0x01, 0x0d, 0xb8, 0x00, 0x00, 0x00, 0x00, 0x00, 0x00, 0x00, 0x00, 0x00, 0x00,
        0x00, 0x54, 0x20, 0x01, 0x0d, 0xb8,
    ];
    let first = Ipv6Address::new(0x2001, 0xdb8, 0, 0, 0, 0, 0, 0x53);
    let second = Ipv6Address::new(0x2001, 0xdb8, 0, 0, 0, 0, 0, 0x54);
    let servers = Servers::new(&octets);
    same(servers.len(), 2);
    same(servers.is_empty(), false);
    let mut turns = servers.iter();
    same(turns.next(), Some(first));
    let Ok(mut copy) = turns.try_clone() else {
        return same("no copy", "a copy");
    };
    same(copy.next(), Some(second));
    same(copy.next(), None);
    same(turns.next(), Some(second));
    same(turns.next(), None);
    prints(&servers, " 2001:db8::53 2001:db8::54");
    let none = Servers::new(&octets[..15]);
    same(none.len(), 0);
    same(none.is_empty(), true);
    same(none.iter().next(), None);
    prints(&none, "");
}

#[test]
fn servers_that_are_written() {
    let first = Ipv6Address::new(0x2001, 0xdb8, 0, 0, 0, 0, 0, 0x53);
    let second = Ipv6Address::new(0xfe80, 0, 0, 0, 0, 0, 0, 1);
    let mut octets = [0xa5; 34];
    same(Servers::write(&[first, second], &mut octets[..31]), None);
    same(octets, [0xa5; 34]);
    let Some(servers) = Servers::write(&[first, second], &mut octets) else {
        return same("no servers", "two servers");
    };
    same(servers.len(), 2);
    let mut turns = servers.iter();
    same(turns.next(), Some(first));
    same(turns.next(), Some(second));
    same(turns.next(), None);
    same(
        octets,
        [
            0x20, 0x01, 0x0d, 0xb8, 0x00, 0x00, 0x00, 0x00, 0x00, 0x00, 0x00, 0x00, 0x00, 0x00,
            0x00, 0x53, 0xfe, 0x80, 0x00, 0x00, 0x00, 0x00, 0x00, 0x00, 0x00, 0x00, 0x00, 0x00,
            0x00, 0x00, 0x00, 0x01, 0xa5, 0xa5,
        ],
    );
    let none = Servers::write(&[], &mut []);
    same(none, Some(Servers::new(&[])));
}
