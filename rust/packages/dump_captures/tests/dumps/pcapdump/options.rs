// Made from crates/tests_pcapdump/src/pcapdump/options.rt by rust/erase.
//! Options with values: words that are not known, hosts, the number of packets, and the forms of times.

use super::PRINTED;
use super::packets::{PACKETS, append, append_interface, append_packet, append_section, pcap};
use crate::testing::{holds_of, same_of};
use capture::{Ending, Time};
use control_wire::record::Name;
use control_wire::{Ipv4Address, Ipv6Address};
use dump_captures::host::Host;
use dump_captures::moment::Moment;
use dump_captures::nearest::nearest;
use dump_captures::options::{Color, Options, TimeForm};
use dump_captures::run_onto;
use dump_captures::settings::{Setting, color_in, count_in, setting_of, split, time_form_in};
use dump_captures::time::Clock;
use dump_captures::when::When;
use packet_fields::Form;
use packet_fields::value::put_text;
#[allow(unused_imports)]
use rattle_std::prelude::*;

#[test]
fn words_that_are_nearest() {
    // A word, and the one of these that is told.
    const KNOWN: &[&str] = &["--only", "--host", "--json", "--strict", "dns", "mdns"];
    const ROWS: &[(&str, Option<&str>)] = &[
        ("--jsn", Some("--json")),
        ("--only", Some("--only")),
        ("-only", Some("--only")),
        ("--hots", Some("--host")),
        ("--strickt", Some("--strict")),
        ("--strct", Some("--strict")),
        ("mnds", Some("dns")),
        ("dn", Some("dns")),
        // More changes than a word of this length may have.
        ("nds", None),
        ("d", None),
        ("", None),
        ("--verbose", None),
    ];
    for (word, want) in ROWS {
        same_of(word, nearest(word, KNOWN).ok(), Some(*want));
    }
}

#[test]
fn values_behind_an_equals_sign() {
    const ROWS: &[(&str, &str, Option<&str>)] = &[
        ("--only", "--only", None),
        ("--only=dns,mdns", "--only", Some("dns,mdns")),
        ("--only=", "--only", Some("")),
        ("--name=a=b", "--name", Some("a=b")),
        ("=", "", Some("")),
    ];
    for (word, option, value) in ROWS {
        same_of(word, split(word, '='), (*option, *value));
    }
    same_of("--time", setting_of("--time"), Some(Setting::Time));
    same_of("-c", setting_of("-c"), Some(Setting::Most));
    same_of("--json", setting_of("--json"), None);
}

#[test]
fn numbers_of_packets() {
    const ROWS: &[(&str, Option<u64>)] = &[
        ("1", Some(1)),
        ("007", Some(7)),
        ("18446744073709551615", Some(u64::MAX)),
        ("18446744073709551616", None),
        ("0", None),
        ("", None),
        ("+1", None),
        ("-1", None),
        ("1 ", None),
        ("ten", None),
    ];
    for (text, want) in ROWS {
        same_of(text, count_in(text), *want);
    }
    same_of("delta", time_form_in("delta"), Some(TimeForm::Delta));
    same_of("UTC", time_form_in("UTC"), None);
}

#[test]
fn names_of_colors() {
    same_of("auto", color_in("auto"), Some(Color::Auto));
    same_of("always", color_in("always"), Some(Color::Always));
    same_of("never", color_in("never"), Some(Color::Never));
    same_of("Always", color_in("Always"), None);
    same_of("empty", color_in(""), None);
}

#[test]
fn texts_of_hosts() {
    let v4 = Ipv4Address::new(192, 0, 2, 53);
    let v6 = Ipv6Address::new(0x2001, 0xdb8, 0, 0, 0, 0, 0, 0x53);
    let hosts = [
        ("192.0.2.53", Host::V4(v4, 32)),
        ("192.0.2.53/0", Host::V4(v4, 0)),
        ("192.0.2.53/32", Host::V4(v4, 32)),
        ("2001:db8::53", Host::V6(v6, 128)),
        ("2001:DB8:0::0:53/33", Host::V6(v6, 33)),
    ];
    for (text, host) in &hosts {
        same_of(text, Host::read(text), Some(*host));
    }
    const NONE: &[&str] = &[
        "",
        "host",
        "192.0.2",
        "192.0.2.053",
        "192.0.2.53/",
        "192.0.2.53/33",
        "192.0.2.53/+8",
        "192.0.2.53/8/8",
        "2001:db8::53/129",
        "2001:db8::53%1",
        "[2001:db8::53]",
        "/8",
    ];
    for text in NONE {
        same_of(text, Host::read(text), None);
    }
}

// What the packets of these places print is what is printed of all packets with these options.
fn check(options: &Options, places: &[usize], ending: Option<Ending>) {
    let capture = pcap(PACKETS);
    let mut want = Vec::new();
    for place in places {
        if let Some((_, printed)) = PACKETS.get(*place) {
            append(&mut want, printed.as_bytes());
        }
    }
    let mut output = Vec::new();
    let answer = run_onto(options, capture.as_slice(), &mut output);
    let told = match answer {
        Ok(report) => Some(report.ending),
        Err(_) => None,
    };
    same_of(places, told, Some(ending));
    same_of(places, output.as_slice(), want.as_slice());
}

#[test]
fn packets_of_a_host() {
    // The text of the host, and the places of the packets that are printed.
    const ROWS: &[(&str, &[usize])] = &[
        ("192.0.2.53", &[0, 3, 8, 10, 11, 12]),
        ("192.0.2.1", &[0, 3, 4, 5, 6, 8, 10, 11, 12]),
        ("224.0.0.0/4", &[4, 5]),
        ("0.0.0.0/0", &[0, 3, 4, 5, 6, 8, 10, 11, 12]),
        ("fe80::2", &[7, 9]),
        ("ff02::/16", &[2]),
        ("ff03::/15", &[2]),
        ("ff03::/16", &[]),
        ("::/0", &[2, 7, 9]),
    ];
    for (text, places) in ROWS {
        let options = Options {
            host: Host::read(text),
            ..PRINTED
        };
        check(&options, places, Some(Ending::Whole));
    }
}

#[test]
fn messages_with_a_name() {
    const ROWS: &[(&str, &[usize])] = &[
        ("printer.local", &[4]),
        ("Local.", &[4]),
        ("rinter.local", &[]),
        ("a.printer.local", &[]),
        ("local.printer", &[]),
    ];
    for (text, places) in ROWS {
        let options = Options {
            name: Name::from_text(text.as_bytes()).ok(),
            ..PRINTED
        };
        check(&options, places, Some(Ending::Whole));
    }
}

#[test]
fn captures_that_are_read_in_part() {
    // The number of packets, the places of those that are printed, and whether the capture is read to its end.
    const ROWS: &[(u64, &[usize], bool)] = &[
        (1, &[0], false),
        (2, &[0, 2], false),
        (4, &[0, 2, 3, 4], false),
        (11, &[0, 2, 3, 4, 5, 6, 7, 8, 9, 10, 11, 12], false),
        (12, &[0, 2, 3, 4, 5, 6, 7, 8, 9, 10, 11, 12], true),
    ];
    for (most, places, is_whole) in ROWS {
        let options = Options {
            most: Some(*most),
            ..PRINTED
        };
        let ending = if *is_whole { Some(Ending::Whole) } else { None };
        check(&options, places, ending);
    }
}

// The times in the headings of what is printed of a capture are these.
fn check_times(capture: &[u8], options: &Options, times: &[&str]) {
    let mut output = Vec::new();
    holds_of(times, run_onto(options, capture, &mut output).is_ok());
    let text = std::str::from_utf8(output.as_slice()).unwrap_or("");
    let mut place = 0;
    for line in text.lines() {
        if !line.starts_with(' ') {
            same_of(times, line.split(' ').nth(1), times.get(place).copied());
            place = place.saturating_add(1);
        }
    }
    same_of(times, place, times.len());
}

#[test]
fn times_in_each_form() {
    const ROWS: &[(TimeForm, [&str; 4])] = &[
        (
            TimeForm::Utc,
            [
                "2024-05-01T12:35:06.000000000Z",
                "2024-05-01T12:35:04.000000000Z",
                "2024-05-01T12:35:04.000000000Z",
                "2024-05-01T12:36:11.000000000Z",
            ],
        ),
        (
            TimeForm::Clock,
            [
                "12:35:06.000",
                "12:35:04.000",
                "12:35:04.000",
                "12:36:11.000",
            ],
        ),
        (
            TimeForm::Relative,
            [
                "0.000000000",
                "-2.000000000",
                "-2.000000000",
                "65.000000000",
            ],
        ),
        (
            TimeForm::Delta,
            ["0.000000000", "-2.000000000", "0.000000000", "67.000000000"],
        ),
        (
            TimeForm::Epoch,
            [
                "1714566906.000000000",
                "1714566904.000000000",
                "1714566904.000000000",
                "1714566971.000000000",
            ],
        ),
    ];
    let digits = PACKETS[5].0;
    let mut capture = Vec::new();
    append_section(&mut capture);
    append_interface(&mut capture, 101);
    for seconds in [10, 8, 8, 75] {
        append_packet(&mut capture, 0, seconds, digits);
    }
    for (time_form, times) in ROWS {
        let options = Options {
            time_form: Some(*time_form),
            ..PRINTED
        };
        check_times(capture.as_slice(), &options, times);
    }
}

// The packets of ICMPv6, of a capture whose first packet is another.
#[test]
fn times_since_packets_that_are_printed_or_not() {
    const ROWS: &[(TimeForm, [&str; 3])] = &[
        (
            TimeForm::Relative,
            ["2.000000000", "7.000000000", "9.000000000"],
        ),
        (
            TimeForm::Delta,
            ["0.000000000", "5.000000000", "2.000000000"],
        ),
    ];
    let capture = pcap(PACKETS);
    for (time_form, times) in ROWS {
        let options = Options {
            host: Host::read("::/0"),
            time_form: Some(*time_form),
            ..PRINTED
        };
        check_times(capture.as_slice(), &options, times);
    }
}

#[test]
fn lengths_of_time() {
    // The seconds and nanoseconds of two times, and the time between them.
    const ROWS: &[(u64, u32, u64, u32, &str)] = &[
        (0, 0, 0, 0, "0.000000000"),
        (1, 999_999_999, 2, 0, "0.000000001"),
        (2, 0, 1, 999_999_999, "-0.000000001"),
        (1, 5, 3, 4, "1.999999999"),
        (3, 4, 1, 5, "-1.999999999"),
        (7, 1_000, 7, 2_000, "0.000001000"),
        (
            0,
            1,
            u64::MAX,
            999_999_999,
            "18446744073709551615.999999998",
        ),
    ];
    let mut clock = Clock::new();
    for (from_seconds, from_nanoseconds, seconds, nanoseconds, want) in ROWS {
        let when = When {
            form: TimeForm::Delta,
            from: moment(*from_seconds, *from_nanoseconds),
            time: moment(*seconds, *nanoseconds),
        };
        let mut output = Vec::new();
        let written = put_text(&mut output, Form::Lines, when.word(&mut clock));
        holds_of(want, written.is_ok());
        same_of(want, output.as_slice(), want.as_bytes());
    }
}

fn moment(seconds: u64, nanoseconds: u32) -> Moment {
    Moment::of(Time {
        seconds,
        nanoseconds: nanoseconds % 1_000_000_000,
        digits: 9,
    })
}
