// Made from crates/tests_capture/src/captures/faults.rt by rust/erase.
//! Readers that give few octets at a call, are interrupted, and fail.

use super::{DAMAGE, FILES, File, Row, check_input, check_record, cut_at, damaged};
use crate::testing::same_of;
use capture::{Capture, Ending, Fault, Next};
use rattle_std::io::{self, BufReader, ErrorKind, Read};
#[allow(unused_imports)]
use rattle_std::prelude::*;

// A pcap file of two records of no bytes, with one of a byte between them.
const EMPTY_RECORDS: &[u8] = &[
    0xd4, 0xc3, 0xb2, 0xa1, 2, 0, 4, 0, 0, 0, 0, 0, 0, 0, 0, 0, 0, 0, 4, 0, 1, 0, 0, 0, //
    0x00, 0xca, 0x9a, 0x3b, 0x40, 0xe2, 0x01, 0x00, 0, 0, 0, 0, 60, 0, 0, 0, //
    0x01, 0xca, 0x9a, 0x3b, 0x01, 0x00, 0x00, 0x00, 1, 0, 0, 0, 60, 0, 0, 0, 0xa1, //
    0x02, 0xca, 0x9a, 0x3b, 0x02, 0x00, 0x00, 0x00, 0, 0, 0, 0, 60, 0, 0, 0,
];

const EMPTY_RECORDS_ROWS: &[Row] = &[
    (1, Some((1_000_000_000, 123_456_000, 6)), 1, 60, &[]),
    (2, Some((1_000_000_001, 1_000, 6)), 1, 60, &[0xa1]),
    (3, Some((1_000_000_002, 2_000, 6)), 1, 60, &[]),
];

// A section of an interface of Ethernet, with blocks of 12 and of 16 bytes that are passed over before and behind a
// simple packet.
const PASSED_BLOCKS: &[u8] = &[
    0x0a, 0x0d, 0x0d, 0x0a, 0, 0, 0, 28, 0x1a, 0x2b, 0x3c, 0x4d, 0, 1, 0, 0, 255, 255, 255, 255,
    255, 255, 255, 255, 0, 0, 0, 28, //
    0, 0, 0, 1, 0, 0, 0, 20, 0, 1, 0, 0, 0, 0, 0, 0, 0, 0, 0, 20, //
    0, 0, 0, 5, 0, 0, 0, 12, 0, 0, 0, 12, //
    0, 0, 0, 4, 0, 0, 0, 16, 0, 0, 0, 0, 0, 0, 0, 16, //
    0, 0, 0, 3, 0, 0, 0, 20, 0, 0, 0, 4, 0xe1, 0xe2, 0xe3, 0xe4, 0, 0, 0, 20, //
    0, 0, 0, 4, 0, 0, 0, 16, 0, 0, 0, 0, 0, 0, 0, 16, //
    0, 0, 0, 5, 0, 0, 0, 12, 0, 0, 0, 12,
];

const PASSED_BLOCKS_ROWS: &[Row] = &[(1, None, 1, 4, &[0xe1, 0xe2, 0xe3, 0xe4])];

// Each with the ends of its units, and how many records there are up to each.
const MORE_FILES: &[File] = &[
    (
        EMPTY_RECORDS,
        EMPTY_RECORDS_ROWS,
        &[(24, 0), (40, 1), (57, 2), (73, 3)],
    ),
    (
        PASSED_BLOCKS,
        PASSED_BLOCKS_ROWS,
        &[
            (28, 0),
            (48, 0),
            (60, 0),
            (76, 0),
            (96, 1),
            (112, 1),
            (124, 1),
        ],
    ),
];

// Gives so many octets at a call, is interrupted at each third where it is to be, and fails at one.
struct Source<'a> {
    octets: &'a [u8],
    given: usize,
    is_interrupted: bool,
    calls: usize,
    fails_at: usize,
}

impl Read for Source<'_> {
    fn read(&mut self, buffer: &mut [u8]) -> io::Result<usize> {
        self.calls = self.calls.saturating_add(1);
        if self.calls == self.fails_at {
            return Err(ErrorKind::Other.into());
        }
        if self.is_interrupted && self.calls % 3 == 0 {
            return Err(ErrorKind::Interrupted.into());
        }
        let len = buffer.len().min(self.octets.len()).min(self.given);
        let (given, left) = self.octets.split_at(len);
        buffer[..len].copy_from_slice(given);
        self.octets = left;
        Ok(len)
    }
}

// How many octets a source gives before its call of this number.
fn given_before(call: usize, given: usize, is_interrupted: bool) -> usize {
    let before = call.saturating_sub(1);
    let interrupted = if is_interrupted { before / 3 } else { 0 };
    before.saturating_sub(interrupted).saturating_mul(given)
}

// Of a source that fails, the records are read that it gave whole before, and then the fault is told.
fn check_failing(file: &File, source: Source<'_>) {
    let (octets, rows, units) = file;
    let of = (source.given, source.is_interrupted, source.fails_at);
    let len = given_before(source.fails_at, source.given, source.is_interrupted);
    let (records, _) = cut_at(len.min(octets.len()), units);
    let Ok(mut input) = BufReader::new(source) else {
        return same_of(of, false, true);
    };
    let mut capture = Capture::new();
    for want in rows.iter() {
        if want.0 <= records {
            check_record(octets, &mut capture, &mut input, want);
        }
    }
    let read = capture.next(&mut input);
    same_of(of, read, Err(Fault::Read));
}

// The calls of a source that gives all of so many octets, and then tells the end.
fn calls_for(len: usize, given: usize, is_interrupted: bool) -> usize {
    let calls = len.div_ceil(given.max(1)).saturating_add(1);
    let interrupted = if is_interrupted {
        calls.saturating_sub(1) / 2
    } else {
        0
    };
    calls.saturating_add(interrupted)
}

// Reads a file from a source that fails at each call in turn, and then from one that does not fail.
fn check_source(file: &File, given: usize, is_interrupted: bool) {
    let (octets, rows, _) = file;
    for fails_at in 1..calls_for(octets.len(), given, is_interrupted).saturating_add(1) {
        let source = Source {
            octets,
            given,
            is_interrupted,
            calls: 0,
            fails_at,
        };
        check_failing(file, source);
    }
    let source = Source {
        octets,
        given,
        is_interrupted,
        calls: 0,
        fails_at: 0,
    };
    match BufReader::new(source) {
        Ok(mut input) => check_input(octets, &mut input, rows, Ending::Whole),
        Err(_) => same_of(given, false, true),
    }
}

// Each number of octets at a call shows other fronts of the records and blocks.
#[test]
fn readers_that_fail() {
    for files in [FILES, MORE_FILES] {
        for file in files {
            for given in 1..64 {
                check_source(file, given, false);
                check_source(file, given, true);
            }
            check_source(file, 1_000, false);
        }
    }
}

// The octets are read through a buffer as they are from a slice, and never with a fault.
fn check_same(octets: &[u8], given: usize) {
    let source = Source {
        octets,
        given,
        is_interrupted: true,
        calls: 0,
        fails_at: 0,
    };
    let Ok(mut input) = BufReader::new(source) else {
        return same_of(given, false, true);
    };
    let mut slice = octets;
    let mut whole = Capture::new();
    let mut parts = Capture::new();
    let mut has_ended = false;
    for _ in 0..octets.len() {
        if !has_ended {
            let wanted = whole.next(&mut slice);
            let read = parts.next(&mut input);
            has_ended = !matches!(wanted, Ok(Next::Record(_)));
            same_of(given, wanted.is_ok(), true);
            same_of(given, read, wanted);
            same_of(given, has_ended || parts.octets() == whole.octets(), true);
        }
    }
}

#[test]
fn damaged_files_in_parts() {
    for files in [FILES, MORE_FILES] {
        for (octets, _, _) in files {
            for i in 0..octets.len() {
                for &byte in DAMAGE {
                    let damaged = damaged(octets, i, byte);
                    for given in [1, 13, 20] {
                        check_same(damaged.as_slice(), given);
                    }
                }
            }
        }
    }
}

// A record of the most bytes that are kept of a packet, behind the header of a file.
const LARGE_FRONT: &[u8] = &[
    0xd4, 0xc3, 0xb2, 0xa1, 2, 0, 4, 0, 0, 0, 0, 0, 0, 0, 0, 0, 0, 0, 4, 0, 1, 0, 0, 0, //
    0x00, 0xca, 0x9a, 0x3b, 0x40, 0xe2, 0x01, 0x00, 0, 0, 4, 0, 0, 0, 4, 0,
];

#[test]
fn a_record_of_the_most_bytes() {
    let mut octets = Vec::new();
    same_of((), octets.extend_from_slice(LARGE_FRONT).is_ok(), true);
    for _ in 0..1_024 {
        let more = octets.extend_from_slice(&[0x5a; 256]);
        same_of((), more.is_ok(), true);
    }
    for given in [1, 1_000, 8_192] {
        check_same(octets.as_slice(), given);
    }
    let mut input = octets.as_slice();
    let mut capture = Capture::new();
    let read = capture.next(&mut input);
    same_of((), matches!(read, Ok(Next::Record(_))), true);
    same_of((), capture.octets().len(), 262_144);
}
