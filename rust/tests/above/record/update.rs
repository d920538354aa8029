// Made from crates/tests_above/src/record/update.rt by rust/erase.
//! Records of updates without data, and others.

use crate::testing::same_of;
use control_wire::dns::Type;
use control_wire::record::rdata::RData;
use control_wire::record::{classes, types};
use control_wire::{Error, Ipv4Address, Result};

#[test]
fn data_of_updates() {
    const EMPTY: Result<RData<'static>> = Ok(RData::Other(b""));
    let rows: [(Type, u16, &[u8], Result<RData<'static>>); 8] = [
        (types::A, classes::ANY, b"", EMPTY),
        (types::MX, classes::NONE, b"", EMPTY),
        (types::ANY, classes::ANY, b"", EMPTY),
        (types::MX, classes::CH, b"", Err(Error)),
        (types::A, classes::IN, b"", Err(Error)),
        (
            types::A,
            classes::IN,
            b"\xc0\0\x02\x01",
            Ok(RData::A(Ipv4Address::new(192, 0, 2, 1))),
        ),
        (
            types::NS,
            classes::NONE,
            b"\x02ns\0",
            Ok(RData::Name(b"\x02ns\0")),
        ),
        (types::NS, classes::NONE, b"\x02ns", Err(Error)),
    ];
    for (type_, class, octets, data) in rows {
        let read = RData::parse_update(type_, class, octets);
        same_of((type_, class), read, data);
    }
}
