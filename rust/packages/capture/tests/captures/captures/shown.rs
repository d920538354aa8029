// Made from crates/tests_capture/src/captures/shown.rt by rust/erase.
// What a buffer shows of the packet that comes next.

use super::{FILES, File};
use crate::testing::same_of;
use capture::pcap::shows_record;
use capture::pcapng::shows_packet;
use capture::{Capture, Next, Order};

// Where the unit ends that holds the packet behind so many.
fn end_of_next(read: u64, units: &[(usize, u64)]) -> Option<usize> {
    for &(end, count) in units {
        if count > read {
            return Some(end);
        }
    }
    None
}

// Each front of what is left of a file shows the next packet where all is in it up to the end of that one's unit.
fn check_fronts(capture: &Capture, file: &File, left: &[u8], read: u64) {
    let &(octets, _, units) = file;
    let place = octets.len().saturating_sub(left.len());
    let next = end_of_next(read, units);
    for len in 0..=left.len() {
        let want = match next {
            Some(end) => place.saturating_add(len) >= end,
            None => false,
        };
        let shown = left.get(..len).unwrap_or(left);
        same_of((place, len), capture.shows_next(shown), want);
    }
}

fn check_file(file: &File) {
    let &(octets, rows, _) = file;
    let mut input = octets;
    let mut capture = Capture::new();
    for len in 0..=octets.len() {
        let shown = octets.get(..len).unwrap_or(octets);
        same_of(len, capture.shows_next(shown), false);
    }
    for row in rows {
        let read = capture.next(&mut input);
        same_of(row.0, matches!(read, Ok(Next::Record(_))), true);
        check_fronts(&capture, file, input, row.0);
    }
    let read = capture.next(&mut input);
    same_of(octets, matches!(read, Ok(Next::Ended(_))), true);
    same_of(octets, capture.shows_next(&[]), true);
    same_of(octets, capture.shows_next(octets), true);
}

#[test]
fn each_front_of_the_packet_that_comes_next() {
    for file in FILES {
        check_file(file);
    }
}

#[test]
fn records_that_are_shown() {
    const ROWS: &[(&[u8], bool)] = &[
        // Of no bytes, and without the last byte of its header; of one byte, which is there or not.
        (&[0, 0, 0, 0, 0, 0, 0, 0, 0, 0, 0, 0, 9, 0, 0, 0], true),
        (&[0, 0, 0, 0, 0, 0, 0, 0, 0, 0, 0, 0, 9, 0, 0], false),
        (&[0, 0, 0, 0, 0, 0, 0, 0, 1, 0, 0, 0, 9, 0, 0, 0], false),
        (&[0, 0, 0, 0, 0, 0, 0, 0, 1, 0, 0, 0, 9, 0, 0, 0, 5], true),
    ];
    for &(octets, want) in ROWS {
        same_of(octets, shows_record(Order::Little, octets), want);
    }
}

#[test]
fn blocks_that_are_shown() {
    const ROWS: &[(&[u8], bool)] = &[
        // A simple packet of no bytes, and without the last byte.
        (&[0, 0, 0, 3, 0, 0, 0, 16, 0, 0, 0, 0, 0, 0, 0, 16], true),
        (&[0, 0, 0, 3, 0, 0, 0, 16, 0, 0, 0, 0, 0, 0, 0], false),
        // Of lengths that are no block's.
        (&[0, 0, 0, 3, 0, 0, 0, 8, 0, 0, 0, 8], false),
        (&[0, 0, 0, 3, 0, 0, 0, 13, 0, 0, 0, 0, 13], false),
        // A description and statistics, which hold no packet.
        (&[0, 0, 0, 1, 0, 0, 0, 12, 0, 0, 0, 12], false),
        (&[0, 0, 0, 5, 0, 0, 0, 12, 0, 0, 0, 12], false),
        // Of the other order of bytes.
        (&[3, 0, 0, 0, 16, 0, 0, 0, 0, 0, 0, 0, 16, 0, 0, 0], false),
        // A packet behind statistics and a description, and without the last byte.
        (
            &[
                0, 0, 0, 5, 0, 0, 0, 12, 0, 0, 0, 12, 0, 0, 0, 1, 0, 0, 0, 12, 0, 0, 0, 12, 0, 0,
                0, 3, 0, 0, 0, 16, 0, 0, 0, 0, 0, 0, 0, 16,
            ],
            true,
        ),
        (
            &[
                0, 0, 0, 5, 0, 0, 0, 12, 0, 0, 0, 12, 0, 0, 0, 3, 0, 0, 0, 16, 0, 0, 0, 0, 0, 0, 0,
            ],
            false,
        ),
        // Behind a section header of the other order, by that, and no longer by the order before it.
        (
            &[
                10, 13, 13, 10, 12, 0, 0, 0, 0x4d, 0x3c, 0x2b, 0x1a, 3, 0, 0, 0, 16, 0, 0, 0, 0, 0,
                0, 0, 16, 0, 0, 0,
            ],
            true,
        ),
        (
            &[
                10, 13, 13, 10, 12, 0, 0, 0, 0x4d, 0x3c, 0x2b, 0x1a, 0, 0, 0, 3, 0, 0, 0, 16, 0, 0,
                0, 0, 0, 0, 0, 16,
            ],
            false,
        ),
        // Behind a block whose length is no block's.
        (
            &[
                0, 0, 0, 5, 0, 0, 0, 13, 0, 0, 0, 0, 13, 0, 0, 0, 3, 0, 0, 0, 16, 0, 0, 0, 0, 0, 0,
                0, 16,
            ],
            false,
        ),
    ];
    for &(octets, want) in ROWS {
        same_of(octets, shows_packet(Order::Big, octets), want);
    }
}
