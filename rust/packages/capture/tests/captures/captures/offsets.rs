// Made from crates/tests_capture/src/captures/offsets.rt by rust/erase.
// Interfaces whose times are told from another time than 1970 on.

use crate::testing::same_of;
use capture::{Capture, Next, Time};
#[allow(unused_imports)]
use rattle_std::prelude::*;

// The octets around the options of a description, in either order: a section header and the description's
// front, whose length is left out, and enhanced and obsolete packets of 10.25 s in microseconds, with a simple packet.
type Around = (&'static [u8], &'static [u8], &'static [u8]);

const LITTLE: Around = (
    &[
        0x0a, 0x0d, 0x0d, 0x0a, 28, 0, 0, 0, 0x4d, 0x3c, 0x2b, 0x1a, 1, 0, 0, 0, 255, 255, 255,
        255, 255, 255, 255, 255, 28, 0, 0, 0, //
        1, 0, 0, 0,
    ],
    &[1, 0, 0, 0, 0, 0, 0, 0],
    &[
        6, 0, 0, 0, 32, 0, 0, 0, 0, 0, 0, 0, 0, 0, 0, 0, 0x10, 0x67, 0x9c, 0, 0, 0, 0, 0, 0, 0, 0,
        0, 32, 0, 0, 0, //
        2, 0, 0, 0, 32, 0, 0, 0, 0, 0, 0, 0, 0, 0, 0, 0, 0x10, 0x67, 0x9c, 0, 0, 0, 0, 0, 0, 0, 0,
        0, 32, 0, 0, 0, //
        3, 0, 0, 0, 16, 0, 0, 0, 0, 0, 0, 0, 16, 0, 0, 0,
    ],
);

const BIG: Around = (
    &[
        0x0a, 0x0d, 0x0d, 0x0a, 0, 0, 0, 28, 0x1a, 0x2b, 0x3c, 0x4d, 0, 1, 0, 0, 255, 255, 255,
        255, 255, 255, 255, 255, 0, 0, 0, 28, //
        0, 0, 0, 1,
    ],
    &[0, 1, 0, 0, 0, 0, 0, 0],
    &[
        0, 0, 0, 6, 0, 0, 0, 32, 0, 0, 0, 0, 0, 0, 0, 0, 0, 0x9c, 0x67, 0x10, 0, 0, 0, 0, 0, 0, 0,
        0, 0, 0, 0, 32, //
        0, 0, 0, 2, 0, 0, 0, 32, 0, 0, 0, 0, 0, 0, 0, 0, 0, 0x9c, 0x67, 0x10, 0, 0, 0, 0, 0, 0, 0,
        0, 0, 0, 0, 32, //
        0, 0, 0, 3, 0, 0, 0, 16, 0, 0, 0, 0, 0, 0, 0, 16,
    ],
);

// A file of a description with these options, whose length is that of so many bytes in this order.
fn file(around: &Around, len: &[u8], options: &[u8]) -> Vec<u8> {
    let mut octets = Vec::new();
    add(&mut octets, around.0);
    add(&mut octets, len);
    add(&mut octets, around.1);
    add(&mut octets, options);
    add(&mut octets, len);
    add(&mut octets, around.2);
    octets
}

fn add(octets: &mut Vec<u8>, part: &[u8]) {
    same_of((), octets.extend_from_slice(part).is_ok(), true);
}

// The packets of a file have this time, and the simple one has none.
fn check(octets: &[u8], seconds: u64, nanoseconds: u32) {
    let mut input = octets;
    let mut capture = Capture::new();
    let time = Time {
        seconds,
        nanoseconds,
        digits: 6,
    };
    for want in [Some(time), Some(time), None] {
        let read = match capture.next(&mut input) {
            Ok(Next::Record(record)) => Some(record.time),
            _ => None,
        };
        same_of(octets, read, Some(want));
    }
}

// Options, with the seconds and nanoseconds of 10.25 s by them.
type Row = (&'static [u8], u64, u32);

const LITTLE_ROWS: &[Row] = &[
    (&[], 10, 250_000_000),
    (&[14, 0, 8, 0, 5, 0, 0, 0, 0, 0, 0, 0], 15, 250_000_000),
    // -3, -10 and -11 seconds, and the most and the least.
    (
        &[14, 0, 8, 0, 0xfd, 255, 255, 255, 255, 255, 255, 255],
        7,
        250_000_000,
    ),
    (
        &[14, 0, 8, 0, 0xf6, 255, 255, 255, 255, 255, 255, 255],
        0,
        250_000_000,
    ),
    (
        &[14, 0, 8, 0, 0xf5, 255, 255, 255, 255, 255, 255, 255],
        0,
        0,
    ),
    (
        &[14, 0, 8, 0, 255, 255, 255, 255, 255, 255, 255, 0x7f],
        9_223_372_036_854_775_817,
        250_000_000,
    ),
    (&[14, 0, 8, 0, 0, 0, 0, 0, 0, 0, 0, 0x80], 0, 0),
    // In milliseconds, which are told behind it and before it.
    (
        &[
            14, 0, 8, 0, 5, 0, 0, 0, 0, 0, 0, 0, 9, 0, 1, 0, 3, 0, 0, 0, 0, 0, 0, 0,
        ],
        10_255,
        0,
    ),
    (
        &[
            9, 0, 1, 0, 3, 0, 0, 0, 14, 0, 8, 0, 5, 0, 0, 0, 0, 0, 0, 0, 0, 0, 0, 0,
        ],
        10_255,
        0,
    ),
    // Of another length, alone and with one behind it; a second one; behind the end of the options; and cut short.
    (&[14, 0, 4, 0, 7, 0, 0, 0], 10, 250_000_000),
    (
        &[14, 0, 4, 0, 7, 0, 0, 0, 14, 0, 8, 0, 5, 0, 0, 0, 0, 0, 0, 0],
        15,
        250_000_000,
    ),
    (
        &[
            14, 0, 8, 0, 5, 0, 0, 0, 0, 0, 0, 0, 14, 0, 8, 0, 7, 0, 0, 0, 0, 0, 0, 0,
        ],
        15,
        250_000_000,
    ),
    (
        &[0, 0, 0, 0, 14, 0, 8, 0, 5, 0, 0, 0, 0, 0, 0, 0],
        10,
        250_000_000,
    ),
    (&[14, 0, 8, 0, 5, 0, 0, 0], 10, 250_000_000),
];

const BIG_ROWS: &[Row] = &[
    (&[0, 14, 0, 8, 0, 0, 0, 0, 0, 0, 0, 5], 15, 250_000_000),
    (
        &[0, 14, 0, 8, 255, 255, 255, 255, 255, 255, 255, 0xfd],
        7,
        250_000_000,
    ),
];

#[test]
fn times_of_an_interface_with_an_offset() {
    for &(options, seconds, nanoseconds) in LITTLE_ROWS {
        let len = [options.len().min(200) as u8 + 20, 0, 0, 0];
        let octets = file(&LITTLE, &len, options);
        check(octets.as_slice(), seconds, nanoseconds);
    }
    for &(options, seconds, nanoseconds) in BIG_ROWS {
        let len = [0, 0, 0, options.len().min(200) as u8 + 20];
        let octets = file(&BIG, &len, options);
        check(octets.as_slice(), seconds, nanoseconds);
    }
}

// The greatest seconds stay the greatest, with the same part of one.
#[test]
fn times_at_the_end_of_64_bits() {
    const ROWS: &[(u64, i64, u64)] = &[
        (u64::MAX, 1, u64::MAX),
        (u64::MAX - 1, 1, u64::MAX),
        (u64::MAX - 1, i64::MAX, u64::MAX),
        (u64::MAX, i64::MIN, 9_223_372_036_854_775_807),
    ];
    for &(seconds, offset, want) in ROWS {
        let time = Time {
            seconds,
            nanoseconds: 7,
            digits: 9,
        };
        let moved = Time {
            seconds: want,
            nanoseconds: 7,
            digits: 9,
        };
        same_of((seconds, offset), time.moved(offset), moved);
    }
}
