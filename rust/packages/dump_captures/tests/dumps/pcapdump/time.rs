// Made from crates/tests_pcapdump/src/pcapdump/time.rt by rust/erase.
//! Times as text.

use crate::testing::{holds_of, same_of};
use dump_captures::time::Clock;
use packet_fields::Form;
use packet_fields::value::put_text;
#[allow(unused_imports)]
use rattle_std::prelude::*;

// Seconds and nanoseconds, and their text by `date -u -d @N +%Y-%m-%dT%H:%M:%S`. The clock that writes them goes from
// day to day and back, and stays on one for some.
const TIMES: &[(u64, u32, &str)] = &[
    (0, 0, "1970-01-01T00:00:00.000000000Z"),
    (86_399, 999_999_999, "1970-01-01T23:59:59.999999999Z"),
    (86_400, 7, "1970-01-02T00:00:00.000000007Z"),
    (5_097_599, 120_000_000, "1970-02-28T23:59:59.120000000Z"),
    (5_097_600, 123_456_789, "1970-03-01T00:00:00.123456789Z"),
    (68_169_600, 1_000, "1972-02-29T00:00:00.000001000Z"),
    (951_782_399, 0, "2000-02-28T23:59:59.000000000Z"),
    (951_782_400, 0, "2000-02-29T00:00:00.000000000Z"),
    (951_868_799, 0, "2000-02-29T23:59:59.000000000Z"),
    (951_868_800, 0, "2000-03-01T00:00:00.000000000Z"),
    (978_307_199, 0, "2000-12-31T23:59:59.000000000Z"),
    (978_307_200, 0, "2001-01-01T00:00:00.000000000Z"),
    (1_714_566_896, 0, "2024-05-01T12:34:56.000000000Z"),
    (1_714_566_899, 5, "2024-05-01T12:34:59.000000005Z"),
    (1_714_566_900, 5, "2024-05-01T12:35:00.000000005Z"),
    (4_107_542_399, 0, "2100-02-28T23:59:59.000000000Z"),
    (4_107_542_400, 0, "2100-03-01T00:00:00.000000000Z"),
    (13_569_465_599, 0, "2399-12-31T23:59:59.000000000Z"),
    (13_574_563_200, 0, "2400-02-29T00:00:00.000000000Z"),
    (253_402_300_799, 0, "9999-12-31T23:59:59.000000000Z"),
    (253_402_300_800, 0, "10000-01-01T00:00:00.000000000Z"),
    (253_402_300_799, 0, "9999-12-31T23:59:59.000000000Z"),
    (0, 0, "1970-01-01T00:00:00.000000000Z"),
    // The last year of these that `date` knows is 2,147,483,647.
    (
        67_767_976_233_532_799,
        0,
        "2147483647-12-31T23:59:59.000000000Z",
    ),
];

// The greatest time: that of 2023-11-09T07:00:15, and 1,461,385,123 cycles of 400 years.
const LAST: &str = "584554051223-11-09T07:00:15.999999999Z";

#[test]
fn times_by_one_clock() {
    let mut clock = Clock::new();
    for (seconds, nanoseconds, want) in TIMES {
        let mut output = Vec::new();
        let time = clock.time(*seconds, *nanoseconds);
        let written = put_text(&mut output, Form::Lines, time);
        holds_of(want, written.is_ok());
        same_of(want, output.as_slice(), want.as_bytes());
    }
    let mut output = Vec::new();
    let time = clock.time(u64::MAX, 999_999_999);
    let written = put_text(&mut output, Form::Lines, time);
    holds_of(LAST, written.is_ok());
    same_of(LAST, output.as_slice(), LAST.as_bytes());
}
