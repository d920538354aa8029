// Made from crates/tests_groups/src/queries.rt by rust/erase.
//! Queries of what is too large for their fields, written from the pictures of the RFCs with their checksums.

use crate::testing::{same, same_of};
use control_wire::groups::{Membership, Message, Query, Sources};
use control_wire::{Ipv4Address, Ipv6Address};

// A query of version 3 for 239.1.2.3.
fn query_of(qrv: u8, sources: Sources<'_, Ipv4Address>) -> Query<'_, Ipv4Address> {
    Query {
        max_resp_code: 10,
        group: Ipv4Address::new(239, 1, 2, 3),
        s_flag: false,
        qrv,
        qqic: 125,
        sources,
    }
}

// A code of IGMP has 8 bits (RFC 2236 section 2.2); version and time go by what is written.
#[test]
fn an_older_query_of_a_code_above_255() {
    let rows: &[(u16, u8, [u8; 8])] = &[
        (256, 1, [0x11, 0x00, 0xee, 0xff, 0x00, 0x00, 0x00, 0x00]),
        (356, 2, [0x11, 0x64, 0xee, 0x9b, 0x00, 0x00, 0x00, 0x00]),
    ];
    for (code, version, wanted) in rows {
        let group = Ipv4Address::UNSPECIFIED;
        let query: Membership<'_, Ipv4Address> = Message::OlderQuery {
            max_resp_code: *code,
            group,
        };
        let mut packet = [0xa5; 8];
        query.emit_igmp(&mut packet);
        same_of(code, packet, *wanted);
        same_of(code, query.version(), *version);
        let read = Membership::<Ipv4Address>::parse_igmp(&packet);
        let time = read.ok().and_then(|read| read.max_resp_time());
        same_of(code, time, query.max_resp_time());
    }
}

// A robustness variable that exceeds 7 is set to zero (RFC 3376 section 4.1.6).
#[test]
fn robustness_variables_of_igmp() {
    let rows: &[(u8, u8, [u8; 12])] = &[
        (
            7,
            7,
            [
                0x11, 0x0a, 0xf6, 0x73, 0xef, 0x01, 0x02, 0x03, 0x07, 0x7d, 0x00, 0x00,
            ],
        ),
        (
            8,
            0,
            [
                0x11, 0x0a, 0xfd, 0x73, 0xef, 0x01, 0x02, 0x03, 0x00, 0x7d, 0x00, 0x00,
            ],
        ),
        (
            9,
            0,
            [
                0x11, 0x0a, 0xfd, 0x73, 0xef, 0x01, 0x02, 0x03, 0x00, 0x7d, 0x00, 0x00,
            ],
        ),
        (
            255,
            0,
            [
                0x11, 0x0a, 0xfd, 0x73, 0xef, 0x01, 0x02, 0x03, 0x00, 0x7d, 0x00, 0x00,
            ],
        ),
    ];
    for (qrv, stated, wanted) in rows {
        let query: Membership<'_, Ipv4Address> = Message::Query(query_of(*qrv, Sources::none()));
        let mut packet = [0xa5; 12];
        if query.buffer_len() <= 12 {
            query.emit_igmp(&mut packet);
        }
        same_of(qrv, packet, *wanted);
        let read = Membership::<Ipv4Address>::parse_igmp(&packet);
        let stated_query = Message::Query(query_of(*stated, Sources::none()));
        same_of(qrv, read, Ok(stated_query));
    }
}

// The same (RFC 3810 section 5.1.8).
#[test]
fn a_robustness_variable_of_9_of_mld() {
    let src_addr = Ipv6Address::new(0xfe80, 0, 0, 0, 0, 0xff, 0xfe00, 0x1);
    let dst_addr = Ipv6Address::new(0xff02, 0, 0, 0, 0, 0, 0, 0x1);
    let query: Membership<'_, Ipv6Address> = Message::Query(Query {
        max_resp_code: 10_000,
        group: Ipv6Address::UNSPECIFIED,
        s_flag: false,
        qrv: 9,
        qqic: 125,
        sources: Sources::none(),
    });
    let mut packet = [0xa5; 28];
    if query.buffer_len() <= 28 {
        query.emit_mld(&mut packet, &src_addr, &dst_addr);
    }
    let wanted = [
        0x82, 0x00, 0x59, 0x96, 0x27, 0x10, 0x00, 0x00, 0x00, 0x00, 0x00, 0x00, 0x00, 0x00, 0x00,
        0x00, 0x00, 0x00, 0x00, 0x00, 0x00, 0x00, 0x00, 0x00, 0x00, 0x7d, 0x00, 0x00,
    ];
    same(packet, wanted);
}

// How many sources so many octets hold.
fn sources_in(octets: &[u8], len: usize) -> usize {
    Sources::<Ipv4Address>::new(&octets[..len.min(octets.len())]).len()
}

// A query counts its sources in two bytes (RFC 3376 section 4.1.8), and each has four.
#[test]
fn sources_are_whole_and_at_most_65535() {
    let octets = [0; 262_148];
    for (len, count) in [
        (0, 0),
        (3, 0),
        (4, 1),
        (7, 1),
        (262_140, 65_535),
        (262_143, 65_535),
        (262_144, 65_535),
        (262_148, 65_535),
    ] {
        same_of(len, sources_in(&octets, len), count);
    }
}

// How many sources are written of so many addresses.
fn sources_of(addresses: &[Ipv4Address], count: usize, octets: &mut [u8]) -> Option<usize> {
    let addresses = &addresses[..count.min(addresses.len())];
    Some(Sources::write(addresses, octets)?.len())
}

#[test]
fn more_than_65535_sources_are_not_written() {
    let addresses = [Ipv4Address::UNSPECIFIED; 65_536];
    let mut octets = [0; 262_144];
    let all = sources_of(&addresses, 65_535, &mut octets);
    same(all, Some(65_535));
    let more = sources_of(&addresses, 65_536, &mut octets);
    same(more, None);
}

// What is behind the last whole address is no source, and is not written.
#[test]
fn a_query_of_octets_that_end_within_an_address() {
    let octets = [0xc0, 0x00, 0x02, 0x01, 0xc0, 0x00];
    let query: Membership<'_, Ipv4Address> = Message::Query(query_of(2, Sources::new(&octets)));
    same(query.buffer_len(), 16);
    let mut packet = [0xa5; 16];
    if query.buffer_len() <= 16 {
        query.emit_igmp(&mut packet);
    }
    let wanted = [
        0x11, 0x0a, 0x39, 0x71, 0xef, 0x01, 0x02, 0x03, 0x02, 0x7d, 0x00, 0x01, 0xc0, 0x00, 0x02,
        0x01,
    ];
    same(packet, wanted);
    let read = Membership::<Ipv4Address>::parse_igmp(&packet);
    same(read, Ok(query));
}
