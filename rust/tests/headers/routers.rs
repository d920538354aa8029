// Made from crates/tests_headers/src/routers.rt by rust/erase.
//! The routers of advertisements in turn.

#[allow(unused_imports)]
use crate::rattle_std::prelude::*;
use crate::rattle_std::test::Fail;
use crate::testing::{same, same_of};
use control_wire::Ipv4Address;
use control_wire::headers::Message;
use control_wire::headers::icmpv4::{Router, RouterAdvertisement, Routers};

// Two routers, the second of which is no default router.
const TWO: [u8; 16] = [
    0xc0, 0x00, 0x02, 0x01, 0x00, 0x00, 0x00, 0x00, 0xc0, 0x00, 0x02, 0x02, 0x80, 0x00, 0x00, 0x00,
];

#[test]
fn routers_in_turn() -> Result<(), Fail> {
    let first = Router {
        addr: Ipv4Address::new(192, 0, 2, 1),
        preference: 0,
    };
    let second = Router {
        addr: Ipv4Address::new(192, 0, 2, 2),
        preference: -2_147_483_648,
    };
    let routers = Routers::new(&TWO);
    same(routers.len(), 2);
    let mut left = routers.iter();
    same(left.next(), Some(first));
    let mut copy = left.try_clone()?;
    same(copy.next(), Some(second));
    same(left.next(), Some(second));
    same(left.next(), None);
    Ok(())
}

#[test]
fn an_advertisement_of_routers() {
    let advertisement = Message::RouterAdvertisement(RouterAdvertisement {
        lifetime: 1800,
        routers: Routers::new(&TWO),
    });
    let mut octets = [0xff; 24];
    if advertisement.buffer_len() == 24 {
        advertisement.emit_into(&mut octets);
    }
    let wanted = [
        0x09, 0x00, 0xe9, 0xf0, 0x02, 0x02, 0x07, 0x08, 0xc0, 0x00, 0x02, 0x01, 0x00, 0x00, 0x00,
        0x00, 0xc0, 0x00, 0x02, 0x02, 0x80, 0x00, 0x00, 0x00,
    ];
    same(octets, wanted);
    same(Message::parse(&octets), Ok(advertisement));
}

// Of an entry of three words, the last is not looked at.
#[test]
fn a_router_of_a_longer_entry() {
    let octets = [
        0x09, 0x00, 0x8f, 0x55, 0x01, 0x03, 0x07, 0x08, 0xc0, 0x00, 0x02, 0x01, 0xff, 0xff, 0xff,
        0xff, 0xde, 0xad, 0xbe, 0xef,
    ];
    match Message::parse(&octets) {
        Ok(Message::RouterAdvertisement(advertisement)) => {
            let router = Router {
                addr: Ipv4Address::new(192, 0, 2, 1),
                preference: -1,
            };
            let mut left = advertisement.routers.iter();
            same(left.next(), Some(router));
            same(left.next(), None);
        }
        read => same(Some(read), None),
    }
}

// Fewer octets than a router has are none.
#[test]
fn how_many_routers_octets_have() {
    for len in 0..=16 {
        let routers = Routers::new(&TWO[..len]);
        same_of(len, routers.len(), len / 8);
        same_of(len, routers, Routers::new(&TWO[..len / 8 * 8]));
    }
}
