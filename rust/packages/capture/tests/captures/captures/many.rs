// Made from crates/tests_capture/src/captures/many.rt by rust/erase.
// Sections of many interfaces, and blocks of no packet.

use crate::testing::same_of;
use capture::pcapng::{Interface, parse_packet};
use capture::{Capture, Ending, Next, Order, Refusal};
#[allow(unused_imports)]
use rattle_std::prelude::*;

// A section header of a machine with the highest byte first, and a description of Ethernet.
const SECTION: &[u8] = &[
    0x0a, 0x0d, 0x0d, 0x0a, 0, 0, 0, 28, 0x1a, 0x2b, 0x3c, 0x4d, 0, 1, 0, 0, 255, 255, 255, 255,
    255, 255, 255, 255, 0, 0, 0, 28,
];

const DESCRIPTION: &[u8] = &[0, 0, 0, 1, 0, 0, 0, 20, 0, 1, 0, 0, 0, 0, 0, 0, 0, 0, 0, 20];

#[test]
fn a_section_of_more_interfaces_than_are_kept() {
    let mut octets = Vec::new();
    same_of((), octets.extend_from_slice(SECTION).is_ok(), true);
    for count in 0..65_537u32 {
        let added = octets.extend_from_slice(DESCRIPTION).is_ok();
        same_of(count, added, true);
        if count >= 65_535 {
            let mut input = octets.as_slice();
            let mut capture = Capture::new();
            let want = if count == 65_535 {
                Ending::Whole
            } else {
                Ending::TooManyInterfaces
            };
            let read = capture.next(&mut input);
            same_of(count, read, Ok(Next::Ended(want)));
        }
    }
}

#[test]
fn blocks_that_hold_no_packet() {
    const BLOCK: &[u8] = &[0, 0, 0, 3, 0, 0, 0, 16, 0, 0, 0, 0, 0, 0, 0, 16];

    // A kind, how many bytes of the block, and why it is refused in a section without an interface.
    const ROWS: &[(u32, usize, Refusal)] = &[
        (5, 11, Refusal::Short),
        (5, 12, Refusal::Kind(5)),
        (3, 15, Refusal::Short),
        (3, 16, Refusal::Interface(0)),
        (6, 16, Refusal::Short),
    ];
    let interfaces: &[Interface] = &[];
    for &(kind, len, want) in ROWS {
        let block = BLOCK.get(..len).unwrap_or(&[]);
        let read = parse_packet(Order::Big, kind, interfaces, block);
        same_of((kind, len), read, Err(want));
    }
}
