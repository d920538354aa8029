// Made from crates/tests_capture/src/captures.rt by rust/erase.
#[allow(unused_imports)]
use rattle_std::prelude::*;
mod faults;
mod many;
mod offsets;
mod printing;
mod shown;
mod times;

use crate::testing::same_of;
use capture::{Capture, Ending, Fault, Next, Record, Refusal, Time};
use rattle_std::io;

// A record by what a table has of it: its number, its seconds, nanoseconds and digits, link type, original length and
// bytes.
type Row = (u64, Option<(u64, u32, u8)>, u16, u32, &'static [u8]);

// A pcap file of a machine with the lowest byte first, in microseconds: two packets of Ethernet, the second cut.
const LITTLE_MICRO: &[u8] = &[
    0xd4, 0xc3, 0xb2, 0xa1, 2, 0, 4, 0, 0, 0, 0, 0, 0, 0, 0, 0, 0, 0, 4, 0, 1, 0, 0, 0, //
    0x00, 0xca, 0x9a, 0x3b, 0x40, 0xe2, 0x01, 0x00, 3, 0, 0, 0, 3, 0, 0, 0, 0xa1, 0xa2,
    0xa3, //
    0x01, 0xca, 0x9a, 0x3b, 0x01, 0x00, 0x00, 0x00, 2, 0, 0, 0, 60, 0, 0, 0, 0xb1, 0xb2,
];

const LITTLE_MICRO_ROWS: &[Row] = &[
    (
        1,
        Some((1_000_000_000, 123_456_000, 6)),
        1,
        3,
        &[0xa1, 0xa2, 0xa3],
    ),
    (2, Some((1_000_000_001, 1_000, 6)), 1, 60, &[0xb1, 0xb2]),
];

// A pcap file of a machine with the highest byte first, in nanoseconds, of Linux cooked packets; the upper bits of its
// link type say that each frame ends with a check of four bytes.
const BIG_NANO: &[u8] = &[
    0xa1, 0xb2, 0x3c, 0x4d, 0, 2, 0, 4, 0, 0, 0, 0, 0, 0, 0, 0, 0, 4, 0, 0, 0x24, 0x00, 0x00,
    0x71, //
    0x3b, 0x9a, 0xca, 0x00, 0x07, 0x5b, 0xcd, 0x15, 0, 0, 0, 1, 0, 0, 0, 1, 0xc1,
];

const BIG_NANO_ROWS: &[Row] = &[(1, Some((1_000_000_000, 123_456_789, 9)), 113, 1, &[0xc1])];

// A section of a machine with the lowest byte first, of unknown length. Its interfaces count milliseconds, by an option
// behind one that is skipped, and microseconds. It holds an enhanced packet of each, a block that is passed over, a
// simple packet and an obsolete one.
const LITTLE_SECTION: &[u8] = &[
    0x0a, 0x0d, 0x0d, 0x0a, 28, 0, 0, 0, 0x4d, 0x3c, 0x2b, 0x1a, 1, 0, 0, 0, 255, 255, 255, 255,
    255, 255, 255, 255, 28, 0, 0, 0, //
    1, 0, 0, 0, 40, 0, 0, 0, 101, 0, 0, 0, 4, 0, 0, 0, 2, 0, 3, 0, 0x65, 0x74, 0x68, 0, 9, 0, 1, 0,
    3, 0, 0, 0, 0, 0, 0, 0, 40, 0, 0, 0, 1, 0, 0, 0, 20, 0, 0, 0, 1, 0, 0, 0, 0, 0, 0, 0, 20, 0, 0,
    0, //
    6, 0, 0, 0, 36, 0, 0, 0, 0, 0, 0, 0, 0, 0, 0, 0, 0xd2, 0x04, 0, 0, 1, 0, 0, 0, 9, 0, 0, 0,
    0xd1, 0, 0, 0, 36, 0, 0, 0, //
    6, 0, 0, 0, 44, 0, 0, 0, 1, 0, 0, 0, 1, 0, 0, 0, 2, 0, 0, 0, 4, 0, 0, 0, 4, 0, 0, 0, 0xe1,
    0xe2, 0xe3, 0xe4, 2, 0, 1, 0, 0, 0, 0, 0, 44, 0, 0, 0, //
    5, 0, 0, 0, 16, 0, 0, 0, 1, 2, 3, 4, 16, 0, 0, 0, //
    3, 0, 0, 0, 20, 0, 0, 0, 5, 0, 0, 0, 0xf1, 0xf2, 0xf3, 0xf4, 20, 0, 0, 0, //
    2, 0, 0, 0, 36, 0, 0, 0, 1, 0, 7, 0, 0, 0, 0, 0, 3, 0, 0, 0, 2, 0, 0, 0, 2, 0, 0, 0, 0x91,
    0x92, 0, 0, 36, 0, 0, 0,
];

const LITTLE_SECTION_ROWS: &[Row] = &[
    (1, Some((1, 234_000_000, 3)), 101, 9, &[0xd1]),
    (
        2,
        Some((4294, 967_298_000, 6)),
        1,
        4,
        &[0xe1, 0xe2, 0xe3, 0xe4],
    ),
    (3, None, 101, 5, &[0xf1, 0xf2, 0xf3, 0xf4]),
    (4, Some((0, 3_000, 6)), 1, 2, &[0x91, 0x92]),
];

// A section of a machine with the highest byte first, with the time in units of a 1024th of a second.
const BIG_SECTION: &[u8] = &[
    0x0a, 0x0d, 0x0d, 0x0a, 0, 0, 0, 28, 0x1a, 0x2b, 0x3c, 0x4d, 0, 1, 0, 2, 0, 0, 0, 0, 0, 0, 0,
    0, 0, 0, 0, 28, //
    0, 0, 0, 1, 0, 0, 0, 28, 1, 0x14, 0, 0, 0, 0, 0, 0, 0, 9, 0, 1, 0x8a, 0, 0, 0, 0, 0, 0,
    28, //
    0, 0, 0, 6, 0, 0, 0, 36, 0, 0, 0, 0, 0, 0, 0, 0, 0, 0, 6, 0, 0, 0, 0, 2, 0, 0, 0, 2, 0x81,
    0x82, 0, 0, 0, 0, 0, 36,
];

const BIG_SECTION_ROWS: &[Row] = &[(1, Some((1, 500_000_000, 9)), 276, 2, &[0x81, 0x82])];

fn row(number: u64, row: &Row) -> Record {
    let &(_, time, link_type, original_len, octets) = row;
    let time = match time {
        Some((seconds, nanoseconds, digits)) => Some(Time {
            seconds,
            nanoseconds,
            digits,
        }),
        None => None,
    };
    Record {
        number,
        time,
        link_type,
        captured_len: octets.len().min(262_144) as u32,
        original_len,
    }
}

// The digits of the time that was read, which two times may have differently and be equal.
fn digits(read: Result<Next, Fault>) -> Option<u8> {
    match read {
        Ok(Next::Record(Record {
            time: Some(time), ..
        })) => Some(time.digits),
        _ => None,
    }
}

// Reads the record of a row.
fn check_record<R: io::BufRead>(of: &[u8], capture: &mut Capture, input: &mut R, want: &Row) {
    let read = capture.next(input);
    let record = Ok(Next::Record(row(want.0, want)));
    same_of(of, read, record);
    same_of(of, digits(read), digits(record));
    same_of(of, capture.octets(), want.4);
}

// The input holds the records of these rows, and then ends so, again and again.
fn check_input<R: io::BufRead>(of: &[u8], input: &mut R, rows: &[Row], ending: Ending) {
    let mut capture = Capture::new();
    for want in rows {
        check_record(of, &mut capture, input, want);
    }
    for _ in 0..2 {
        let read = capture.next(input);
        same_of(of, read, Ok(Next::Ended(ending)));
    }
}

fn check(octets: &[u8], rows: &[Row], ending: Ending) {
    let mut input = octets;
    check_input(octets, &mut input, rows, ending);
}

// A capture, its records, and where its units end: those before its first record, and each of the others.
type File = (&'static [u8], &'static [Row], &'static [(usize, u64)]);

// Each with the ends of its units, and how many records there are up to each.
const FILES: &[File] = &[
    (
        LITTLE_MICRO,
        LITTLE_MICRO_ROWS,
        &[(24, 0), (43, 1), (61, 2)],
    ),
    (BIG_NANO, BIG_NANO_ROWS, &[(24, 0), (41, 1)]),
    (
        LITTLE_SECTION,
        LITTLE_SECTION_ROWS,
        &[
            (28, 0),
            (68, 0),
            (88, 0),
            (124, 1),
            (168, 2),
            (184, 2),
            (204, 3),
            (240, 4),
        ],
    ),
    (BIG_SECTION, BIG_SECTION_ROWS, &[(28, 0), (56, 0), (92, 1)]),
];

#[test]
fn files_of_each_kind() {
    for (octets, rows, _) in FILES {
        check(octets, rows, Ending::Whole);
    }
}

// How many records a front of so many bytes holds, and what ends it.
fn cut_at(len: usize, units: &[(usize, u64)]) -> (u64, Ending) {
    let mut records = 0;
    let mut ending = if len < 4 {
        Ending::NotACapture
    } else {
        Ending::Cut
    };
    for &(end, count) in units {
        if end <= len {
            records = count;
        }
        if end == len {
            ending = Ending::Whole;
        }
    }
    (records, ending)
}

#[test]
fn each_front_of_a_file() {
    for (octets, rows, units) in FILES {
        for len in 0..octets.len() {
            let (records, ending) = cut_at(len, units);
            let mut input = &octets[..len];
            let mut capture = Capture::new();
            for want in rows.iter() {
                if want.0 <= records {
                    check_record(octets, &mut capture, &mut input, want);
                }
            }
            let read = capture.next(&mut input);
            same_of((octets, len), read, Ok(Next::Ended(ending)));
        }
    }
}

// Two sections in one file, of either order.
#[test]
fn a_section_of_the_other_order() {
    let mut both = Vec::new();
    same_of((), both.extend_from_slice(LITTLE_SECTION).is_ok(), true);
    same_of((), both.extend_from_slice(BIG_SECTION).is_ok(), true);
    let mut input = both.as_slice();
    let mut capture = Capture::new();
    for want in LITTLE_SECTION_ROWS {
        check_record(LITTLE_SECTION, &mut capture, &mut input, want);
    }
    for want in BIG_SECTION_ROWS {
        let read = capture.next(&mut input);
        same_of(BIG_SECTION, read, Ok(Next::Record(row(5, want))));
    }
}

#[test]
fn what_ends_a_capture() {
    const ROWS: &[(&[u8], Ending)] = &[
        (b"", Ending::NotACapture),
        (b"GIF89a", Ending::NotACapture),
        // Version 2.3.
        (
            &[
                0xd4, 0xc3, 0xb2, 0xa1, 2, 0, 3, 0, 0, 0, 0, 0, 0, 0, 0, 0, 0, 0, 4, 0, 1, 0, 0, 0,
            ],
            Ending::Version,
        ),
        // A record of 262,145 bytes.
        (
            &[
                0xd4, 0xc3, 0xb2, 0xa1, 2, 0, 4, 0, 0, 0, 0, 0, 0, 0, 0, 0, 0, 0, 4, 0, 1, 0, 0,
                0, //
                0, 0, 0, 0, 0, 0, 0, 0, 1, 0, 4, 0, 1, 0, 4, 0,
            ],
            Ending::TooLarge,
        ),
        // A record of 262,144 bytes, which are not there.
        (
            &[
                0xd4, 0xc3, 0xb2, 0xa1, 2, 0, 4, 0, 0, 0, 0, 0, 0, 0, 0, 0, 0, 0, 4, 0, 1, 0, 0,
                0, //
                0, 0, 0, 0, 0, 0, 0, 0, 0, 0, 4, 0, 0, 0, 4, 0,
            ],
            Ending::Cut,
        ),
        // A section header of no order, of a length that is no block's, with another length at its end, of version 2.0
        // and of too few bytes.
        (
            &[0x0a, 0x0d, 0x0d, 0x0a, 28, 0, 0, 0, 0x4d, 0x3c, 0x2b, 0x1b],
            Ending::Malformed(Refusal::ByteOrder),
        ),
        (
            &[0x0a, 0x0d, 0x0d, 0x0a, 30, 0, 0, 0, 0x4d, 0x3c, 0x2b, 0x1a],
            Ending::Malformed(Refusal::Length(30)),
        ),
        (
            &[
                0x0a, 0x0d, 0x0d, 0x0a, 28, 0, 0, 0, 0x4d, 0x3c, 0x2b, 0x1a, 1, 0, 0, 0, 255, 255,
                255, 255, 255, 255, 255, 255, 24, 0, 0, 0,
            ],
            Ending::Malformed(Refusal::ClosingLength),
        ),
        (
            &[
                0x0a, 0x0d, 0x0d, 0x0a, 28, 0, 0, 0, 0x4d, 0x3c, 0x2b, 0x1a, 2, 0, 0, 0, 255, 255,
                255, 255, 255, 255, 255, 255, 28, 0, 0, 0,
            ],
            Ending::Version,
        ),
        (
            &[
                0x0a, 0x0d, 0x0d, 0x0a, 16, 0, 0, 0, 0x4d, 0x3c, 0x2b, 0x1a, 16, 0, 0, 0,
            ],
            Ending::Malformed(Refusal::Short),
        ),
        // A section header of 524,292 bytes, and one of 524,293, which is no block's length.
        (
            &[0x0a, 0x0d, 0x0d, 0x0a, 4, 0, 8, 0, 0x4d, 0x3c, 0x2b, 0x1a],
            Ending::TooLarge,
        ),
        (
            &[0x0a, 0x0d, 0x0d, 0x0a, 5, 0, 8, 0, 0x4d, 0x3c, 0x2b, 0x1a],
            Ending::Malformed(Refusal::Length(524_293)),
        ),
    ];
    for &(octets, ending) in ROWS {
        check(octets, &[], ending);
    }
}

// What follows the header of a section and a description of Ethernet of at most 4 bytes.
#[test]
fn blocks_that_end_a_section() {
    const ROWS: &[(&[u8], Ending)] = &[
        // A block of a kind that is passed over: of a length that is no block's, and longer than what is left.
        (
            &[5, 0, 0, 0, 8, 0, 0, 0, 8, 0, 0, 0],
            Ending::Malformed(Refusal::Length(8)),
        ),
        (&[5, 0, 0, 0, 0, 0, 0, 16, 1, 2, 3, 4], Ending::Cut),
        // A description of too few bytes.
        (
            &[1, 0, 0, 0, 16, 0, 0, 0, 1, 0, 0, 0, 16, 0, 0, 0],
            Ending::Malformed(Refusal::Short),
        ),
        // A description of another length at its end, and an enhanced packet and a simple one of too few bytes.
        (
            &[1, 0, 0, 0, 20, 0, 0, 0, 1, 0, 0, 0, 0, 0, 0, 0, 24, 0, 0, 0],
            Ending::Malformed(Refusal::ClosingLength),
        ),
        (
            &[6, 0, 0, 0, 16, 0, 0, 0, 9, 0, 0, 0, 16, 0, 0, 0],
            Ending::Malformed(Refusal::Short),
        ),
        (
            &[3, 0, 0, 0, 12, 0, 0, 0, 12, 0, 0, 0],
            Ending::Malformed(Refusal::Short),
        ),
        // An obsolete packet of interface 513, an enhanced packet of the second interface, and one with more bytes than
        // its block.
        (
            &[
                2, 0, 0, 0, 32, 0, 0, 0, 1, 2, 0, 0, 0, 0, 0, 0, 0, 0, 0, 0, 0, 0, 0, 0, 0, 0, 0,
                0, 32, 0, 0, 0,
            ],
            Ending::Malformed(Refusal::Interface(513)),
        ),
        (
            &[
                6, 0, 0, 0, 32, 0, 0, 0, 1, 0, 0, 0, 0, 0, 0, 0, 0, 0, 0, 0, 0, 0, 0, 0, 0, 0, 0,
                0, 32, 0, 0, 0,
            ],
            Ending::Malformed(Refusal::Interface(1)),
        ),
        (
            &[
                6, 0, 0, 0, 32, 0, 0, 0, 0, 0, 0, 0, 0, 0, 0, 0, 0, 0, 0, 0, 1, 0, 0, 0, 1, 0, 0,
                0, 32, 0, 0, 0,
            ],
            Ending::Malformed(Refusal::CapturedLength(1)),
        ),
        // A simple packet with more bytes than its block.
        (
            &[3, 0, 0, 0, 16, 0, 0, 0, 1, 0, 0, 0, 16, 0, 0, 0],
            Ending::Malformed(Refusal::CapturedLength(1)),
        ),
    ];
    for &(block, ending) in ROWS {
        let mut octets = Vec::new();
        let start = LITTLE_SECTION.get(..28).unwrap_or(&[]);
        let described = LITTLE_SECTION.get(68..88).unwrap_or(&[]);
        for part in [start, described, block] {
            same_of((), octets.extend_from_slice(part).is_ok(), true);
        }
        check(octets.as_slice(), &[], ending);
    }
}

// Each byte of each file is changed to each of these.
const DAMAGE: &[u8] = &[0x00, 0x01, 0x06, 0x7f, 0x80, 0xff];

// The octets, with one of them changed.
fn damaged(octets: &[u8], i: usize, byte: u8) -> Vec<u8> {
    let mut damaged = Vec::new();
    same_of((), damaged.extend_from_slice(octets).is_ok(), true);
    if let Some(place) = damaged.as_mut_slice().get_mut(i) {
        *place = byte;
    }
    damaged
}

// Whatever it holds, a file of so few bytes ends within as many calls.
#[test]
fn damaged_files_end() {
    for (octets, _, _) in FILES {
        for i in 0..octets.len() {
            for &byte in DAMAGE {
                let damaged = damaged(octets, i, byte);
                let mut input = damaged.as_slice();
                let mut capture = Capture::new();
                let mut has_ended = false;
                for _ in 0..octets.len() {
                    let read = capture.next(&mut input);
                    same_of(i, read.is_ok(), true);
                    has_ended = matches!(read, Ok(Next::Ended(_)));
                }
                same_of(i, has_ended, true);
            }
        }
    }
}
