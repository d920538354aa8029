// Made from crates/tests_capture/src/captures/printing.rt by rust/erase.
// What endings, refusals, faults, times, dates, records and headers print.

use crate::testing::prints;
use capture::calendar::date_of;
use capture::pcap::{FileHeader, Precision, RecordHeader};
use capture::pcapng::{Head, Interface};
use capture::{Ending, Fault, Next, Order, Packet, Record, Refusal, Time};

#[test]
fn endings_print_what_ended_the_capture() {
    const ROWS: &[(Ending, &str)] = &[
        (Ending::Whole, "it ends behind a whole record"),
        (Ending::Cut, "it ends within a record"),
        (Ending::TooLarge, "a record is too large"),
        (
            Ending::TooManyInterfaces,
            "it describes too many interfaces",
        ),
        (
            Ending::Malformed(Refusal::Interface(3)),
            "a record contradicts itself: interface 3 is not described",
        ),
        (Ending::Version, "its version is not read"),
        (Ending::NotACapture, "it is no capture"),
    ];
    for (ending, text) in ROWS {
        prints(ending, text);
    }
}

#[test]
fn refusals_print_the_check_that_failed() {
    const ROWS: &[(Refusal, &str)] = &[
        (
            Refusal::ByteOrder,
            "a section header tells no order of bytes",
        ),
        (Refusal::Length(30), "30 is not the length of a block"),
        (
            Refusal::ClosingLength,
            "a block ends with another length than it begins with",
        ),
        (Refusal::Short, "a block is too short for its kind"),
        (Refusal::Kind(5), "a block of kind 5 holds no packet"),
        (
            Refusal::Interface(65_536),
            "interface 65536 is not described",
        ),
        (
            Refusal::CapturedLength(70_000),
            "a packet of 70000 bytes is longer than its block",
        ),
    ];
    for (refusal, text) in ROWS {
        prints(refusal, text);
    }
}

#[test]
fn faults_print_what_failed() {
    prints(&Fault::Read, "reading failed");
    prints(&Fault::Memory, "there is no memory");
}

#[test]
fn times_print_with_their_own_digits() {
    // Seconds, nanoseconds and digits. The seconds of the texts are those that `date -u -d TEXT +%s` prints.
    const ROWS: &[(u64, u32, u8, &str)] = &[
        (0, 0, 0, "1970-01-01T00:00:00Z"),
        (1_795_825_769, 123_456_000, 6, "2026-11-28T00:29:29.123456Z"),
        (
            1_795_825_769,
            123_456_000,
            9,
            "2026-11-28T00:29:29.123456000Z",
        ),
        (1_795_825_769, 123_456_000, 3, "2026-11-28T00:29:29.123Z"),
        (1_795_825_769, 123_456_000, 0, "2026-11-28T00:29:29Z"),
        (1_795_825_769, 5, 9, "2026-11-28T00:29:29.000000005Z"),
        (1_795_825_769, 500_000_000, 1, "2026-11-28T00:29:29.5Z"),
        (
            1_795_825_769,
            123_456_789,
            200,
            "2026-11-28T00:29:29.123456789Z",
        ),
        (86_399, 999_999_999, 9, "1970-01-01T23:59:59.999999999Z"),
        (5_097_599, 120_000_000, 2, "1970-02-28T23:59:59.12Z"),
        (5_097_600, 0, 0, "1970-03-01T00:00:00Z"),
        (68_169_600, 1_000, 6, "1972-02-29T00:00:00.000001Z"),
        (951_782_399, 0, 0, "2000-02-28T23:59:59Z"),
        (951_782_400, 0, 0, "2000-02-29T00:00:00Z"),
        (951_868_799, 0, 0, "2000-02-29T23:59:59Z"),
        (951_868_800, 0, 0, "2000-03-01T00:00:00Z"),
        (978_307_199, 0, 0, "2000-12-31T23:59:59Z"),
        (978_307_200, 0, 0, "2001-01-01T00:00:00Z"),
        (4_107_542_399, 0, 0, "2100-02-28T23:59:59Z"),
        (4_107_542_400, 0, 6, "2100-03-01T00:00:00.000000Z"),
        (
            253_402_300_799,
            999_999_999,
            9,
            "9999-12-31T23:59:59.999999999Z",
        ),
        (253_402_300_800, 0, 0, "10000-01-01T00:00:00Z"),
        (13_574_563_200, 0, 0, "2400-02-29T00:00:00Z"),
        // The last year that `date` knows, and the greatest time: that of 2023-11-09T07:00:15, and 1,461,385,123 cycles
        // of 400 years.
        (67_767_976_233_532_799, 0, 0, "2147483647-12-31T23:59:59Z"),
        (
            u64::MAX,
            999_999_999,
            9,
            "584554051223-11-09T07:00:15.999999999Z",
        ),
    ];
    for &(seconds, nanoseconds, digits, text) in ROWS {
        let time = Time {
            seconds,
            nanoseconds,
            digits,
        };
        prints(&time, text);
    }
}

#[test]
fn dates_print_as_the_calendar_has_them() {
    prints(&date_of(0), "1970-01-01");
    prints(&date_of(11_016), "2000-02-29");
    prints(&date_of(20_785), "2026-11-28");
}

const RECORD: Record = Record {
    number: 1,
    time: Some(Time {
        seconds: 1_795_825_769,
        nanoseconds: 123_456_000,
        digits: 6,
    }),
    link_type: 1,
    captured_len: 64,
    original_len: 98,
};

#[test]
fn records_print_their_fields() {
    let text = "record number=1 time=2026-11-28T00:29:29.123456Z link_type=1 captured_len=64 original_len=98";
    prints(&RECORD, text);
    prints(&Next::Record(RECORD), text);
    prints(&Next::Ended(Ending::Cut), "it ends within a record");
    let packet = Packet {
        time: None,
        link_type: 1,
        original_len: 98,
        start: 12,
        captured_len: 64,
    };
    prints(
        &packet,
        "packet time=none link_type=1 original_len=98 start=12 captured_len=64",
    );
}

#[test]
fn headers_print_their_fields() {
    let file = FileHeader {
        order: Order::Little,
        precision: Precision::Micro,
        link_type: 1,
    };
    let record = RecordHeader {
        seconds: 1_795_825_769,
        fraction: 123_456,
        captured_len: 64,
        original_len: 98,
    };
    let head = Head {
        order: Order::Big,
        kind: 6,
        total_len: 36,
    };
    let interface = Interface {
        link_type: 1,
        snap_len: 262_144,
        resolution: 9,
        offset: -3_600,
    };
    prints(
        &file,
        "pcap file order=little-endian precision=microseconds link_type=1",
    );
    prints(&Precision::Nano, "nanoseconds");
    prints(
        &record,
        "record header seconds=1795825769 fraction=123456 captured_len=64 original_len=98",
    );
    prints(&head, "block order=big-endian kind=6 total_len=36");
    prints(
        &interface,
        "interface link_type=1 snap_len=262144 resolution=9 offset=-3600",
    );
}
