// Made from crates/tests_examples/src/callers/member.rt by rust/erase.

use crate::testing::same;
use control_wire::{Duration, Ipv4Address};
use examples::member::{MESSAGE_LEN, answer, join, leave};

// 224.0.6.150
fn group() -> Ipv4Address {
    Ipv4Address::new(224, 0, 6, 150)
}

const REPORT: [u8; MESSAGE_LEN] = [0x16, 0x00, 0x03, 0x69, 0xe0, 0x00, 0x06, 0x96];

const LEAVE: [u8; MESSAGE_LEN] = [0x17, 0x00, 0x02, 0x69, 0xe0, 0x00, 0x06, 0x96];

// A query for all groups, to be answered within 12.8 s.
const QUERY: [u8; MESSAGE_LEN] = [0x11, 0x80, 0xee, 0x7f, 0x00, 0x00, 0x00, 0x00];

#[test]
fn groups_are_joined_and_left() {
    for fill in [0x00, 0xff, 0x2a] {
        let mut out = [fill; MESSAGE_LEN];
        join(group(), &mut out);
        same(out.as_slice(), REPORT.as_slice());
        leave(group(), &mut out);
        same(out.as_slice(), LEAVE.as_slice());
    }
}

#[test]
fn query_for_all_groups_is_answered_within_its_time() {
    let mut out = [0x2a; MESSAGE_LEN];
    same(
        answer(&QUERY, group(), &mut out),
        Some(Duration::from_millis(12_800)),
    );
    same(out.as_slice(), REPORT.as_slice());
}

// A query of version 1 for all groups, which says no time, and the report of version 1 that answers it.
const QUERY_1: [u8; MESSAGE_LEN] = [0x11, 0x00, 0xee, 0xff, 0x00, 0x00, 0x00, 0x00];

const REPORT_1: [u8; MESSAGE_LEN] = [0x12, 0x00, 0x07, 0x69, 0xe0, 0x00, 0x06, 0x96];

#[test]
fn query_of_version_1_is_answered_within_ten_seconds() {
    let mut out = [0x2a; MESSAGE_LEN];
    same(
        answer(&QUERY_1, group(), &mut out),
        Some(Duration::from_secs(10)),
    );
    same(out.as_slice(), REPORT_1.as_slice());
}

#[test]
fn what_is_no_good_query_is_not_answered() {
    let mut out = [0x2a; MESSAGE_LEN];
    let mut bad = QUERY;
    bad[3] ^= 1;
    same(answer(&bad, group(), &mut out), None);
    same(answer(&LEAVE, group(), &mut out), None);
    same(answer(&QUERY[..7], group(), &mut out), None);
    same(out.as_slice(), [0x2a; MESSAGE_LEN].as_slice());
}
