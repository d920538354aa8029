// Made from crates/tests_packet_stats/src/limits.rt by rust/erase.
// As many rows and times as are kept, and more.

use crate::captured::RESPONSE;
use crate::made::{counts, put, query, shows, to_host, to_server, udp};
use crate::testing::same_of;
use message_fields::{Message, Service};
use packet_fields::Form;
use packet_stats::{MOST_ROWS, MOST_TIMES, Stats, show_stats};
#[allow(unused_imports)]
use rattle_std::prelude::*;

// 1,026 questions, of which 2 have no row, and one that has a row again.
#[test]
fn questions_beyond_the_rows() {
    let mut stats = Stats::new();
    for type_ in 1_000..2_026u16 {
        let octets = query(b'a', type_);
        let message = udp(Service::Dns, to_server(), &octets);
        counts(&mut stats, &message, &to_server(), None);
    }
    let octets = query(b'a', 2_000);
    let message = udp(Service::Dns, to_server(), &octets);
    counts(&mut stats, &message, &to_server(), None);
    let mut output = Vec::new();
    let is_shown = show_stats(&mut output, Form::Lines, &mut stats).is_ok();
    same_of((), is_shown, true);
    let first = b"  question=a.example.test. type=TYPE2000 count=2\n";
    same_of((), output.starts_with(first), true);
    same_of((), output.ends_with(b"  questions_not_counted=2\n"), true);
    same_of((), MOST_ROWS, 1_024);
}

// A record of 1,026 sources, of which 2 have no row; the member has its own.
#[test]
fn sources_beyond_the_rows() {
    let mut report = [0; 4_120];
    put(
        &mut report,
        0,
        &[0x22, 0, 0, 0, 0, 0, 0, 1, 1, 0, 4, 2, 232, 1, 1, 1],
    );
    for source in 0..1_026usize {
        put(&mut report, 16 + 4 * source, &(source as u32).to_be_bytes());
    }
    let mut stats = Stats::new();
    let message = Message::Igmp(&report);
    counts(&mut stats, &message, &to_server(), None);
    let mut output = Vec::new();
    let is_shown = show_stats(&mut output, Form::Lines, &mut stats).is_ok();
    same_of((), is_shown, true);
    let first =
        b"  group=232.1.1.1 member=192.0.2.50 count=1\n  group=232.1.1.1 member=192.0.2.50 source=0.0.0.0 ";
    same_of((), output.starts_with(first), true);
    let last = b"source=0.0.3.255 count=1\n  sources_not_counted=2\n";
    same_of((), output.ends_with(last), true);
}

// 4,098 times, of which the last 2 are not kept: of 1 to 4,096 the places are 2,048 and 4,056.
#[test]
fn times_beyond_those_that_are_kept() {
    let mut stats = Stats::new();
    let message = udp(Service::Dns, to_host(), RESPONSE);
    for time in 1..=4_096u64 {
        counts(&mut stats, &message, &to_host(), Some(time * 1_000));
    }
    for _ in 0..2 {
        counts(&mut stats, &message, &to_host(), Some(0));
    }
    shows(
        Form::Lines,
        &mut stats,
        "  rcode=NOERROR count=4098\n  server=192.0.2.1 count=4098 times=4096 median=2.048ms percentile_99=4.056ms \
        times_not_kept=2\n",
    );
    same_of((), MOST_TIMES, 4_096);
}
