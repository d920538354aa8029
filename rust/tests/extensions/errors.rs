// Made from crates/tests_extensions/src/errors.rt by rust/erase.
//! What errors have behind their headers, written (RFC 4884 sections 3 to 5 and 7).

use crate::testing::same;
use control_wire::extensions::{ErrorData, Family, Object};

// The octets of a buffer before it is written into.
const FILLS: &[u8] = &[0x00, 0xff, 0x2a, 0xa5];

// A header of IPv4 and 8 bytes behind it, in length.
const SHORT: &[u8] = &[0x45; 28];

// A structure without objects: ffff - 2000 = dfff.
const EMPTY: &[u8] = &[0x20, 0x00, 0xdf, 0xff];

// Checks that the octets are these parts, one after another.
fn check_parts(octets: &[u8], parts: &[&[u8]]) {
    let mut left = octets;
    for part in parts {
        if left.len() < part.len() {
            return same(left, *part);
        }
        let (front, behind) = left.split_at(part.len());
        same(front, *part);
        left = behind;
    }
    same(left, &[][..]);
}

// A short quote is padded to 128 bytes, and no more than the length is written.
#[test]
fn a_short_quote_and_an_object() {
    let objects = [Object {
        class: 1,
        c_type: 1,
        payload: &[0x00, 0x01, 0x01, 0x01],
    }];
    let data = ErrorData {
        family: Family::V4,
        quoted: SHORT,
        objects: &objects,
    };
    same(data.length(), 32);
    same(data.buffer_len(), 140);
    for &fill in FILLS {
        let mut octets = [fill; 142];
        data.emit_into(&mut octets);
        let behind = [
            0x20, 0x00, 0xdd, 0xf4, 0x00, 0x08, 0x01, 0x01, 0x00, 0x01, 0x01, 0x01, fill, fill,
        ];
        check_parts(&octets, &[SHORT, &[0; 100], &behind]);
    }
}

// A quote of 129 bytes is padded by 3 or 7 to whole words.
#[test]
fn a_quote_that_ends_within_a_word() {
    let quoted = [0x45; 129];
    let data = ErrorData {
        family: Family::V4,
        quoted: &quoted,
        objects: &[],
    };
    same(data.length(), 33);
    same(data.buffer_len(), 136);
    let mut octets = [0xa5; 136];
    data.emit_into(&mut octets);
    check_parts(&octets, &[&quoted, &[0; 3], EMPTY]);
    let data = ErrorData {
        family: Family::V6,
        ..data
    };
    same(data.length(), 17);
    same(data.buffer_len(), 140);
    let mut octets = [0xa5; 140];
    data.emit_into(&mut octets);
    check_parts(&octets, &[&quoted, &[0; 7], EMPTY]);
}

// 255 words of 4 or 8 bytes, which nothing pads.
#[test]
fn the_longest_quotes() {
    let quoted = [0x45; 1020];
    let data = ErrorData {
        family: Family::V4,
        quoted: &quoted,
        objects: &[],
    };
    same(data.length(), 255);
    same(data.buffer_len(), 1024);
    let mut octets = [0xa5; 1024];
    data.emit_into(&mut octets);
    check_parts(&octets, &[&quoted, EMPTY]);
    let quoted = [0x60; 2040];
    let data = ErrorData {
        family: Family::V6,
        quoted: &quoted,
        objects: &[],
    };
    same(data.length(), 255);
    same(data.buffer_len(), 2044);
    let mut octets = [0xa5; 2044];
    data.emit_into(&mut octets);
    check_parts(&octets, &[&quoted, EMPTY]);
}
