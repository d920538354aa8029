// Made from crates/tests_icmp/src/icmp6/mld/inside_icmpv6.rt by rust/erase.

use super::{FILLS, QUERY, REPORT, SOURCE_REPORT, query, report_of};
use crate::testing::{holds_of, reads, same, same_of};
use control_wire::icmpv6::{Packet, Repr};
use control_wire::mld;
use control_wire::mld::{AddressRecordRepr, RecordType};
use control_wire::{
    ChecksumCapabilities, IPV6_LINK_LOCAL_ALL_NODES, IPV6_LINK_LOCAL_ALL_ROUTERS, Result,
};

// The message from ff02::1 to ff02::2 in the octets.
fn read<'a>(octets: &'a [u8], caps: &ChecksumCapabilities) -> Result<Repr<'a>> {
    Repr::parse(
        &IPV6_LINK_LOCAL_ALL_NODES,
        &IPV6_LINK_LOCAL_ALL_ROUTERS,
        &Packet::new_unchecked(octets),
        caps,
    )
}

// Writes a message from ff02::1 to ff02::2 over octets that are all the same, and checks that it is those which are
// wanted.
fn check_written<const N: usize>(
    message: &Repr<'_>,
    caps: &ChecksumCapabilities,
    wanted: &[u8; N],
) {
    for &fill in FILLS {
        let mut octets = [fill; N];
        message.emit(
            &IPV6_LINK_LOCAL_ALL_NODES,
            &IPV6_LINK_LOCAL_ALL_ROUTERS,
            &mut Packet::new_unchecked(octets.as_mut_slice()),
            caps,
        );
        same_of(fill, &octets, wanted);
    }
}

// The query with the checksum that it has from ff02::1 to ff02::2.
const SEALED_QUERY: [u8; 44] = [
    0x82, 0x00, 0x73, 0x74, 0x04, 0x00, 0x00, 0x00, 0xff, 0x02, 0x00, 0x00, 0x00, 0x00, 0x00, 0x00,
    0x00, 0x00, 0x00, 0x00, 0x00, 0x00, 0x00, 0x01, 0x0a, 0x12, 0x00, 0x01, 0xff, 0x02, 0x00, 0x00,
    0x00, 0x00, 0x00, 0x00, 0x00, 0x00, 0x00, 0x00, 0x00, 0x00, 0x00, 0x02,
];

#[test]
fn queries_inside_icmpv6_have_a_checksum() {
    let caps = ChecksumCapabilities::default();
    let query = Repr::Mld(query());
    same([query.buffer_len(), query.packet_len()], [44, 44]);
    check_written(&query, &caps, &SEALED_QUERY);
    reads(&read(&SEALED_QUERY, &caps), &query);
}

#[test]
fn queries_inside_icmpv6_without_a_checksum_are_refused() {
    let caps = ChecksumCapabilities::default();
    holds_of("no checksum", read(&QUERY, &caps).is_err());
}

#[test]
fn reports_inside_icmpv6_have_a_checksum() {
    let caps = ChecksumCapabilities::default();
    let report = Repr::Mld(mld::Repr::Report {
        nr_mcast_addr_rcrds: 1,
        data: &SOURCE_REPORT[8..],
    });
    same([report.buffer_len(), report.packet_len()], [44, 44]);
    check_written(&report, &caps, &SOURCE_REPORT);
    reads(&read(&SOURCE_REPORT, &caps), &report);
}

#[test]
fn a_list_of_records_is_read_back_as_a_report() {
    let caps = ChecksumCapabilities::ignored();
    let records = [AddressRecordRepr::new(
        RecordType::ChangeToExclude,
        IPV6_LINK_LOCAL_ALL_ROUTERS,
    )];
    let by_records = Repr::Mld(mld::Repr::ReportRecordReprs(&records));
    same([by_records.buffer_len(), by_records.packet_len()], [8, 28]);
    check_written(&by_records, &caps, &REPORT);
    reads(&read(&REPORT, &caps), &Repr::Mld(report_of(1)));
}

#[test]
fn a_list_of_records_in_a_longer_buffer_has_the_checksum_of_all_of_it() {
    let caps = ChecksumCapabilities::default();
    let records = [AddressRecordRepr::new(
        RecordType::ChangeToExclude,
        IPV6_LINK_LOCAL_ALL_ROUTERS,
    )];
    let by_records = Repr::Mld(mld::Repr::ReportRecordReprs(&records));
    for &fill in FILLS {
        let mut octets = [fill; 31];
        by_records.emit_into(
            &IPV6_LINK_LOCAL_ALL_NODES,
            &IPV6_LINK_LOCAL_ALL_ROUTERS,
            &mut octets,
            &caps,
        );
        let packet = Packet::new_unchecked(octets.as_slice());
        let is_good =
            packet.verify_checksum(&IPV6_LINK_LOCAL_ALL_NODES, &IPV6_LINK_LOCAL_ALL_ROUTERS);
        holds_of(fill, is_good);
        same_of(fill, &octets[..2], &REPORT[..2]);
        same_of(fill, &octets[4..28], &REPORT[4..]);
        same_of(fill, &octets[28..], [fill; 3].as_slice());
    }
}
