// Made from crates/tests_icmp/src/icmp6/mld.rt by rust/erase.

use crate::icmp6::plain_reader::compare_damaged;
use crate::testing::{holds_of, reads, same, same_of};
use control_wire::icmpv6::Packet;
use control_wire::mld::{AddressRecord, AddressRecordRepr, RecordType, Repr};
use control_wire::{IPV6_LINK_LOCAL_ALL_NODES, IPV6_LINK_LOCAL_ALL_ROUTERS, Ipv6Address};

mod inside_icmpv6;
mod iterators;
mod refusals;
mod texts;
mod times;

// The octets of a buffer before it is written into.
const FILLS: &[u8] = &[0x00, 0xff, 0x2a, 0xa5];

// A query for ff02::1 with one source, ff02::2.
const QUERY: [u8; 44] = [
    0x82, 0x00, 0x00, 0x00, 0x04, 0x00, 0x00, 0x00, 0xff, 0x02, 0x00, 0x00, 0x00, 0x00, 0x00, 0x00,
    0x00, 0x00, 0x00, 0x00, 0x00, 0x00, 0x00, 0x01, 0x0a, 0x12, 0x00, 0x01, 0xff, 0x02, 0x00, 0x00,
    0x00, 0x00, 0x00, 0x00, 0x00, 0x00, 0x00, 0x00, 0x00, 0x00, 0x00, 0x02,
];

// A report of one record: a host excludes no source of ff02::2 from now on.
const REPORT: [u8; 28] = [
    0x8f, 0x00, 0x00, 0x00, 0x00, 0x00, 0x00, 0x01, 0x04, 0x00, 0x00, 0x00, 0xff, 0x02, 0x00, 0x00,
    0x00, 0x00, 0x00, 0x00, 0x00, 0x00, 0x00, 0x00, 0x00, 0x00, 0x00, 0x02,
];

// A report from ff02::1 to ff02::2, with its checksum: a host includes one source of ff02::1, ff02::2.
const SOURCE_REPORT: [u8; 44] = [
    0x8f, 0x00, 0x73, 0x85, 0x00, 0x00, 0x00, 0x01, 0x01, 0x00, 0x00, 0x01, 0xff, 0x02, 0x00, 0x00,
    0x00, 0x00, 0x00, 0x00, 0x00, 0x00, 0x00, 0x00, 0x00, 0x00, 0x00, 0x01, 0xff, 0x02, 0x00, 0x00,
    0x00, 0x00, 0x00, 0x00, 0x00, 0x00, 0x00, 0x00, 0x00, 0x00, 0x00, 0x02,
];

// Writes a message over octets that are all the same, and checks that it is those which are wanted.
fn check_written<const N: usize>(message: &Repr<'_>, wanted: &[u8; N]) {
    for &fill in FILLS {
        let mut octets = [fill; N];
        message.emit(&mut Packet::new_unchecked(octets.as_mut_slice()));
        same_of(fill, &octets, wanted);
    }
    let mut octets = [0; N];
    message.emit_into(&mut octets);
    same(&octets, wanted);
}

// Writes a report of these records as `check_written` does, and checks what it says of its length.
fn check_list<const N: usize>(list: &[AddressRecordRepr<'_>], wanted: &[u8; N]) {
    let report = Repr::ReportRecordReprs(list);
    same([report.buffer_len(), report.packet_len()], [8, N]);
    check_written(&report, wanted);
}

// Writes a message over the front of 64 octets that are all the same, and checks that it is those which are wanted, and
// that the octets behind it stay.
fn check_front(message: &Repr<'_>, wanted: &[u8]) {
    for &fill in FILLS {
        let mut octets = [fill; 64];
        message.emit_into(&mut octets);
        let len = wanted.len();
        same_of(fill, &octets[..len], wanted);
        same_of(fill, &octets[len..], &[fill; 64][len..]);
    }
}

// Checks that these octets are read as this message.
fn check_read(octets: &[u8], message: &Repr<'_>) {
    let read = Repr::parse(&Packet::new_unchecked(octets));
    reads(&read, message);
}

// Checks that these octets are refused.
fn check_refused(octets: &[u8]) {
    let read = Repr::parse(&Packet::new_unchecked(octets));
    holds_of(octets, read.is_err());
}

// What the query says.
fn query() -> Repr<'static> {
    Repr::Query {
        max_resp_code: 0x400,
        mcast_addr: IPV6_LINK_LOCAL_ALL_NODES,
        s_flag: true,
        qrv: 2,
        qqic: 0x12,
        num_srcs: 1,
        data: &QUERY[28..],
    }
}

#[test]
fn queries_are_written_and_read() {
    let query = query();
    check_written(&query, &QUERY);
    check_read(&QUERY, &query);
    same([query.buffer_len(), query.packet_len()], [44, 44]);
}

#[test]
fn queries_have_28_bytes_or_more() {
    for len in 0..28 {
        check_refused(&QUERY[..len]);
    }
}

// The report of the record, which counts so many.
fn report_of(count: u16) -> Repr<'static> {
    Repr::Report {
        nr_mcast_addr_rcrds: count,
        data: &REPORT[8..],
    }
}

#[test]
fn reports_are_written_and_read() {
    let report = report_of(1);
    check_written(&report, &REPORT);
    check_read(&REPORT, &report);
    same([report.buffer_len(), report.packet_len()], [28, 28]);
}

#[test]
fn a_list_of_records_is_written_as_a_report() {
    let records = [AddressRecordRepr::new(
        RecordType::ChangeToExclude,
        IPV6_LINK_LOCAL_ALL_ROUTERS,
    )];
    check_list(&records, &REPORT);
}

#[test]
fn reports_are_read_by_their_first_8_bytes() {
    for len in 0..8 {
        check_refused(&REPORT[..len]);
    }
    let packet = Packet::new_unchecked(&REPORT[..8]);
    holds_of(8, Repr::parse(&packet).is_ok());
}

// Checks the flag and the robustness variable of a query in which their octet is this one.
fn check_flag_octet(byte: u8) {
    let mut octets = [0; 25];
    octets[24] = byte;
    let packet = Packet::new_unchecked(octets.as_slice());
    same_of(byte, packet.s_flag(), byte & 8 != 0);
    same_of(byte, packet.qrv(), byte & 7);
    check_flag_octet_set(octets);
}

// Checks what becomes of the octet where one of the two is set, or the flag is cleared.
fn check_flag_octet_set(octets: [u8; 25]) {
    let mut robust = octets;
    Packet::new_unchecked(robust.as_mut_slice()).set_qrv(2);
    let mut set = octets;
    Packet::new_unchecked(set.as_mut_slice()).set_s_flag();
    let mut cleared = octets;
    Packet::new_unchecked(cleared.as_mut_slice()).clear_s_flag();
    let byte = octets[24];
    let written = [robust[24], set[24], cleared[24]];
    same_of(byte, written, [(byte & 8) | 2, (byte & 7) | 8, byte & 7]);
}

#[test]
fn the_flag_and_the_robustness_variable() {
    for byte in 0..=255 {
        check_flag_octet(byte);
    }
}

// A record of the group ff02::2 that names a data word and two sources, with two octets behind it.
const SHORT_RECORD: [u8; 22] = [
    0x04, 0x01, 0x00, 0x02, 0xff, 0x02, 0, 0, 0, 0, 0, 0, 0, 0, 0, 0, 0, 0, 0, 0x02, 0xaa, 0xbb,
];

fn short_record() -> AddressRecordRepr<'static> {
    AddressRecordRepr {
        record_type: RecordType::ChangeToExclude,
        aux_data_len: 1,
        num_srcs: 2,
        mcast_addr: Ipv6Address::new(0xff02, 0, 0, 0, 0, 0, 0, 2),
        payload: &[0xaa, 0xbb],
    }
}

#[test]
fn records_are_read_by_their_first_20_bytes() {
    for len in 0..20 {
        let octets = &SHORT_RECORD[..len];
        holds_of(len, AddressRecord::new_checked(octets).is_err());
        let record = AddressRecord::new_unchecked(octets);
        holds_of(len, AddressRecordRepr::parse(&record).is_err());
    }
    let record = AddressRecord::new_unchecked(SHORT_RECORD.as_slice());
    same(AddressRecordRepr::parse(&record), Ok(short_record()));
}

#[test]
fn records_are_written_in_20_bytes() {
    let repr = short_record();
    same(repr.buffer_len(), 20);
    for &fill in FILLS {
        let mut written = [fill; 21];
        let mut record = AddressRecord::new_unchecked(written.as_mut_slice());
        repr.emit(&mut record);
        same_of(fill, &written[..20], &SHORT_RECORD[..20]);
        same_of(fill, written[20], fill);
    }
}

// A report of two records: one with a data word and 515 sources, which are left out, and one of an unknown type.
const TWO_RECORDS: [u8; 48] = [
    0x8f, 0x00, 0x00, 0x00, 0x00, 0x00, 0x00, 0x02, 0x02, 0x01, 0x02, 0x03, 0xff, 0x02, 0x00, 0x00,
    0x00, 0x00, 0x00, 0x00, 0x00, 0x00, 0x00, 0x00, 0x00, 0x00, 0x00, 0x01, 0x07, 0x00, 0x00, 0x00,
    0xff, 0x02, 0x00, 0x00, 0x00, 0x00, 0x00, 0x00, 0x00, 0x00, 0x00, 0x00, 0x00, 0x00, 0x00, 0x02,
];

#[test]
fn records_are_written_in_their_order() {
    let records = [
        AddressRecordRepr {
            record_type: RecordType::ModeIsExclude,
            aux_data_len: 1,
            num_srcs: 0x0203,
            mcast_addr: IPV6_LINK_LOCAL_ALL_NODES,
            payload: &[0xaa],
        },
        AddressRecordRepr::new(RecordType::Unknown(7), IPV6_LINK_LOCAL_ALL_ROUTERS),
    ];
    check_list(&records, &TWO_RECORDS);
    check_front(&Repr::ReportRecordReprs(&records), &TWO_RECORDS);
}

#[test]
fn an_empty_list_of_records_is_written() {
    check_list(&[], &[0x8f, 0, 0, 0, 0, 0, 0, 0]);
    let report = Repr::ReportRecordReprs(&[]);
    check_front(&report, &[0x8f, 0, 0, 0, 0, 0, 0, 0]);
}

// Checks that these octets count 300 records, and that each of them is this one.
fn check_300_records(octets: &[u8; 6008], record: &[u8; 20]) {
    let head = [0x8f, 0x00, 0x00, 0x00, 0x00, 0x00, 0x01, 0x2c];
    same(&octets[..8], head.as_slice());
    for at in 0..300 {
        let start = 8 + 20 * at;
        same_of(at, &octets[start..start + 20], record.as_slice());
    }
}

#[test]
fn a_report_of_300_records() {
    let record = AddressRecordRepr::new(RecordType::ModeIsExclude, IPV6_LINK_LOCAL_ALL_NODES);
    let records = [record; 300];
    let report = Repr::ReportRecordReprs(&records);
    same([report.buffer_len(), report.packet_len()], [8, 6008]);
    let mut octets = [0x2a; 6008];
    report.emit(&mut Packet::new_unchecked(octets.as_mut_slice()));
    let one = [
        0x02, 0, 0, 0, 0xff, 0x02, 0, 0, 0, 0, 0, 0, 0, 0, 0, 0, 0, 0, 0, 0x01,
    ];
    check_300_records(&octets, &one);
}

#[test]
fn fields_of_queries() {
    let mut octets = [0x2a; 28];
    let mut packet = Packet::new_unchecked(octets.as_mut_slice());
    packet.set_max_resp_code(0x0102);
    packet.set_mcast_addr(IPV6_LINK_LOCAL_ALL_ROUTERS);
    packet.set_qqic(0x12);
    packet.set_num_srcs(0x0304);
    let numbers = [packet.max_resp_code(), packet.num_srcs()];
    same(numbers, [0x0102, 0x0304]);
    same(packet.mcast_addr(), IPV6_LINK_LOCAL_ALL_ROUTERS);
    same(packet.qqic(), 0x12);
    let written = [
        0x2a, 0x2a, 0x2a, 0x2a, 0x01, 0x02, 0x2a, 0x2a, 0xff, 0x02, 0, 0, 0, 0, 0, 0, 0, 0, 0, 0,
        0, 0, 0, 0x02, 0x2a, 0x12, 0x03, 0x04,
    ];
    same(octets, written);
}

#[test]
fn fields_of_reports() {
    let mut octets = [0x2a; 8];
    let mut packet = Packet::new_unchecked(octets.as_mut_slice());
    packet.set_nr_mcast_addr_rcrds(0x0102);
    same(packet.nr_mcast_addr_rcrds(), 0x0102);
    same(octets, [0x2a, 0x2a, 0x2a, 0x2a, 0x2a, 0x2a, 0x01, 0x02]);
}

// A record of the group ff02::1 that names a data word and 515 sources, with two octets behind it.
const RECORD: [u8; 22] = [
    0x06, 0x01, 0x02, 0x03, 0xff, 0x02, 0, 0, 0, 0, 0, 0, 0, 0, 0, 0, 0, 0, 0, 0x01, 0xaa, 0xbb,
];

#[test]
fn fields_of_records_are_set() {
    let mut octets = [0x2a; 22];
    let mut record = AddressRecord::new_unchecked(octets.as_mut_slice());
    record.set_record_type(RecordType::BlockOldSources);
    record.set_aux_data_len(0x01);
    record.set_num_srcs(0x0203);
    record.set_mcast_addr(IPV6_LINK_LOCAL_ALL_NODES);
    record.payload_mut().copy_from_slice(&[0xaa, 0xbb]);
    same(&*record.into_inner(), RECORD.as_slice());
}

#[test]
fn fields_of_records_are_read() {
    let checked = AddressRecord::new_checked(RECORD.as_slice());
    let record = checked.expect("20 bytes are enough");
    same(record.record_type(), RecordType::BlockOldSources);
    same(record.aux_data_len(), 0x01);
    same(record.num_srcs(), 0x0203);
    same(record.mcast_addr(), IPV6_LINK_LOCAL_ALL_NODES);
}

#[test]
fn records_are_compared_with_what_stands_behind_them() {
    let record = AddressRecord::new_unchecked(RECORD.as_slice());
    same(record.payload(), [0xaa, 0xbb].as_slice());
    let whole = AddressRecord::new_unchecked(RECORD.as_slice());
    let part = AddressRecord::new_unchecked(&RECORD[..21]);
    same([record == whole, record == part], [true, false]);
}

#[test]
fn a_list_of_records_and_a_report_have_the_same_text() {
    let records = [AddressRecordRepr::new(
        RecordType::ChangeToExclude,
        IPV6_LINK_LOCAL_ALL_ROUTERS,
    )];
    let by_records = Repr::ReportRecordReprs(&records);
    let report = report_of(1);
    check_written(&by_records, &REPORT);
    check_written(&report, &REPORT);
    holds_of("another value of the same text", by_records != report);
}

#[test]
fn reports_of_other_counts_have_other_texts() {
    let report = report_of(1);
    let other = report_of(2);
    let mut text = REPORT;
    text[7] = 2;
    check_written(&report, &REPORT);
    check_written(&other, &text);
}

#[test]
fn equal_texts_of_records_have_equal_normal_forms() {
    let bare = AddressRecordRepr::new(RecordType::ChangeToExclude, IPV6_LINK_LOCAL_ALL_ROUTERS);
    let with_payload = AddressRecordRepr {
        payload: &[0xaa],
        ..bare
    };
    let mut one = [0; 20];
    bare.emit_into(&mut one);
    let mut two = [0; 20];
    with_payload.emit_into(&mut two);
    same(one, two);
}

#[test]
fn damaged_queries_and_reports() {
    compare_damaged(&QUERY);
    compare_damaged(&REPORT);
    compare_damaged(&SOURCE_REPORT);
}
