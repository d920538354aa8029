// Made from crates/tests_icmp/src/icmp6/mld/iterators.rt by rust/erase.

use super::{QUERY, short_record};
#[allow(unused_imports)]
use crate::rattle_std::prelude::*;
use crate::rattle_std::test::Fail;
use crate::testing::{holds_of, same, same_of};
use control_wire::icmpv6::Packet;
use control_wire::mld::{AddressRecordRepr, RecordRefusal, RecordType, Records, Repr, Sources};
use control_wire::{IPV6_LINK_LOCAL_ALL_NODES, IPV6_LINK_LOCAL_ALL_ROUTERS, Ipv6Address};

// A record of ff02::1 with the source ff02::2 and a word of auxiliary data, and one of ff02::2 with neither.
const RECORDS: [u8; 60] = [
    0x01, 0x01, 0x00, 0x01, 0xff, 0x02, 0, 0, 0, 0, 0, 0, 0, 0, 0, 0, 0, 0, 0, 0x01, 0xff, 0x02, 0,
    0, 0, 0, 0, 0, 0, 0, 0, 0, 0, 0, 0, 0x02, 0xaa, 0xbb, 0xcc, 0xdd, 0x04, 0x00, 0x00, 0x00, 0xff,
    0x02, 0, 0, 0, 0, 0, 0, 0, 0, 0, 0, 0, 0, 0, 0x02,
];

fn with_source() -> AddressRecordRepr<'static> {
    AddressRecordRepr {
        record_type: RecordType::ModeIsInclude,
        aux_data_len: 1,
        num_srcs: 1,
        mcast_addr: IPV6_LINK_LOCAL_ALL_NODES,
        payload: &RECORDS[20..40],
    }
}

fn bare() -> AddressRecordRepr<'static> {
    AddressRecordRepr::new(RecordType::ChangeToExclude, IPV6_LINK_LOCAL_ALL_ROUTERS)
}

#[test]
fn records_of_a_report_in_turn() {
    let mut records = Records::new(2, &RECORDS);
    same(records.next(), Some(Ok(with_source())));
    same(records.next(), Some(Ok(bare())));
    same(records.next(), None);
    same(records.next(), None);
}

#[test]
fn what_stands_behind_the_last_record_is_left_out() {
    let mut records = Records::new(1, &RECORDS);
    same(records.next(), Some(Ok(with_source())));
    same(records.next(), None);
    same(Records::new(0, &RECORDS).next(), None);
}

#[test]
fn a_record_that_is_cut_is_refused_once() {
    for len in 0..40 {
        let refusal = if len < 20 {
            RecordRefusal::Short
        } else {
            RecordRefusal::Cut
        };
        let mut records = Records::new(2, &RECORDS[..len]);
        same_of(len, records.next(), Some(Err(refusal)));
        same_of(len, records.next(), None);
    }
    let mut records = Records::new(3, &RECORDS);
    same(records.next(), Some(Ok(with_source())));
    same(records.next(), Some(Ok(bare())));
    same(records.next(), Some(Err(RecordRefusal::Short)));
    same(records.next(), None);
}

#[test]
fn copies_of_records_and_sources_go_on_from_the_same_place() -> Result<(), Fail> {
    let mut records = Records::new(2, &RECORDS);
    same(records.next(), Some(Ok(with_source())));
    let mut copy = records.try_clone()?;
    same(copy.next(), Some(Ok(bare())));
    same(copy.next(), None);
    same(records.next(), Some(Ok(bare())));
    let mut sources = with_source().sources();
    let mut copy = sources.try_clone()?;
    same(copy.next(), Some(IPV6_LINK_LOCAL_ALL_ROUTERS));
    same(sources.next(), Some(IPV6_LINK_LOCAL_ALL_ROUTERS));
    Ok(())
}

#[test]
fn sources_of_a_record_in_turn() {
    let mut sources = with_source().sources();
    same(sources.next(), Some(IPV6_LINK_LOCAL_ALL_ROUTERS));
    same(sources.next(), None);
    same(sources.next(), None);
    same(bare().sources().next(), None);
}

#[test]
fn sources_are_as_many_as_are_counted_and_whole() {
    same(short_record().sources().next(), None);
    let cut = AddressRecordRepr {
        num_srcs: 2,
        ..with_source()
    };
    let mut sources = cut.sources();
    same(sources.next(), Some(IPV6_LINK_LOCAL_ALL_ROUTERS));
    same(sources.next(), None);
    let uncounted = AddressRecordRepr {
        num_srcs: 0,
        ..with_source()
    };
    same(uncounted.sources().next(), None);
}

// Checks the sources of a query in these octets.
fn check_query_sources(octets: &[u8], wanted: &[Ipv6Address]) {
    match Repr::parse(&Packet::new_unchecked(octets)) {
        Ok(Repr::Query { num_srcs, data, .. }) => {
            let mut sources = Sources::new(num_srcs, data);
            for &source in wanted {
                same_of(octets, sources.next(), Some(source));
            }
            same_of(octets, sources.next(), None);
        }
        _ => holds_of(octets, false),
    }
}

#[test]
fn sources_of_a_query_in_turn() {
    check_query_sources(&QUERY, &[IPV6_LINK_LOCAL_ALL_ROUTERS]);
    check_query_sources(&QUERY[..43], &[]);
    check_query_sources(&QUERY[..28], &[]);
}

#[test]
fn what_stands_behind_the_sources_is_left_out() {
    let mut sources = Sources::new(1, &RECORDS[4..36]);
    same(sources.next(), Some(IPV6_LINK_LOCAL_ALL_NODES));
    same(sources.next(), None);
    let mut whole = Sources::new(3, &RECORDS[4..40]);
    same(whole.next(), Some(IPV6_LINK_LOCAL_ALL_NODES));
    same(whole.next(), Some(IPV6_LINK_LOCAL_ALL_ROUTERS));
    same(whole.next(), None);
    same(Sources::new(0, &RECORDS[4..36]).next(), None);
}
