// Made from crates/tests_capture/src/captures/times.rt by rust/erase.
// Times of each resolution, their order, and the spans that they are.

use crate::testing::same_of;
use capture::Time;
use capture::pcap::Precision;
use std::cmp::Ordering;
use std::time::Duration;

#[test]
fn times_of_each_resolution() {
    // Units and a resolution, with the seconds, the nanoseconds and the digits.
    const ROWS: &[(u64, u8, (u64, u32, u8))] = &[
        (7, 0, (7, 0, 0)),
        (1_234, 3, (1, 234_000_000, 3)),
        (1_234_567, 6, (1, 234_567_000, 6)),
        (1_234_567_891, 9, (1, 234_567_891, 9)),
        (1_234_567_891_999, 12, (1, 234_567_891, 9)),
        // Halves, eighths, and 1024ths of a second.
        (3, 129, (1, 500_000_000, 1)),
        (11, 131, (1, 375_000_000, 3)),
        (1_537, 138, (1, 500_976_562, 9)),
        (7, 128, (7, 0, 0)),
    ];
    for &(ticks, resolution, want) in ROWS {
        let time = Time::of_ticks(ticks, resolution);
        let told = (time.seconds, time.nanoseconds, time.digits);
        same_of((ticks, resolution), told, want);
    }
    same_of(6, Time::of_fraction(1, 2, Precision::Micro).digits, 6);
    same_of(9, Time::of_fraction(1, 2, Precision::Nano).digits, 9);
}

#[test]
fn times_are_ordered_as_they_follow_each_other() {
    let earlier = Time::of_ticks(1_999_999, 6);
    let later = Time::of_ticks(2, 0);
    same_of((), earlier.cmp(&later), Ordering::Less);
    same_of((), later > earlier, true);
    same_of((), later != earlier, true);

    // That time to other digits.
    let finer = Time::of_ticks(2_000_000_000, 9);
    same_of((), finer.cmp(&later), Ordering::Equal);
    same_of((), finer, later);
}

#[test]
fn spans_since_1970() {
    let time = Time::of_ticks(1_234_567, 6);
    same_of((), Duration::from(time), Duration::new(1, 234_567_000));
    same_of((), time.as_nanos(), 1_234_567_000);

    // One that is no time's, and longer than any span.
    let longest = Time {
        seconds: u64::MAX,
        nanoseconds: u32::MAX,
        digits: 9,
    };
    same_of((), Duration::from(longest), Duration::MAX);
}
