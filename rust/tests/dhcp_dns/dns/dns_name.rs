// Made from crates/tests_dhcp_dns/src/dns/dns_name.rt by rust/erase.
//! Walks over names.

use crate::dns::dns::damaged::damaged;
#[allow(unused_imports)]
use crate::rattle_std::prelude::*;
use crate::testing::{fail, holds_of, same, same_of};
use control_wire::Error;
use control_wire::dns::{NameIter, Packet};

// A response for www.facebook.com: its canonical name, and the address of that.
const RESPONSE: [u8; 79] = [
    0x78, 0x6c, 0x81, 0x80, 0x00, 0x01, 0x00, 0x02, 0x00, 0x00, 0x00, 0x00, 0x03, 0x77, 0x77, 0x77,
    0x08, 0x66, 0x61, 0x63, 0x65, 0x62, 0x6f, 0x6f, 0x6b, 0x03, 0x63, 0x6f, 0x6d, 0x00, 0x00, 0x01,
    0x00, 0x01, 0xc0, 0x0c, 0x00, 0x05, 0x00, 0x01, 0x00, 0x00, 0x05, 0xf3, 0x00, 0x11, 0x09, 0x73,
    0x74, 0x61, 0x72, 0x2d, 0x6d, 0x69, 0x6e, 0x69, 0x04, 0x63, 0x31, 0x30, 0x72, 0xc0, 0x10, 0xc0,
    0x2e, 0x00, 0x01, 0x00, 0x01, 0x00, 0x00, 0x00, 0x05, 0x00, 0x04, 0x1f, 0x0d, 0x53, 0x24,
];

// Two labels, and behind each a pointer to the other.
const MEETING_POINTERS: [u8; 20] = [
    0, 0, 0, 0, 0, 0, 0, 0, 0, 0, 0, 0, 1, 0x61, 0xc0, 0x10, 1, 0x62, 0xc0, 0x0c,
];

// A pointer to itself.
const POINTER_TO_ITSELF: [u8; 14] = [0, 0, 0, 0, 0, 0, 0, 0, 0, 0, 0, 0, 0xc0, 0x0c];

// A label, behind it a pointer forward, and there one into the label.
const POINTER_FORWARD: [u8; 19] = [
    0, 0, 0, 0, 0, 0, 0, 0, 0, 0, 0, 0, 2, 0x61, 0, 0xc0, 0x11, 0xc0, 0x0e,
];

// A label, among its own bytes a pointer to it, and behind it a pointer to that one.
const CUT_LABEL: [u8; 18] = [
    0, 0, 0, 0, 0, 0, 0, 0, 0, 0, 0, 0, 3, 0x61, 0xc0, 0x0c, 0xc0, 0x0e,
];

// Byte 0, and then three pointers, the first to that byte and each other one to the pointer before it.
const FALLING_POINTERS: [u8; 7] = [0x00, 0xc0, 0x00, 0xc0, 0x01, 0xc0, 0x03];

// A pointer to its own second byte, which begins a label of 13 bytes.
const POINTER_INTO_ITSELF: [u8; 14] = [0, 0, 0, 0, 0, 0, 0, 0, 0, 0, 0, 0, 0xc0, 0x0d];

// The walk gives this item, and then it has taken so many steps.
fn check_next<'a>(
    of: (&[u8], &[u8]),
    walk: &mut NameIter<'a>,
    item: Option<Result<&'a [u8], Error>>,
    steps: usize,
) {
    same_of(of, walk.next(), item);
    same_of(of, walk.steps(), steps);
}

// The walk gives these labels, an error where the name is broken, and then the end for good, after so many steps.
fn check<'a>(message: &'a [u8], slice: &'a [u8], labels: &[&[u8]], broken: bool, steps: usize) {
    let packet = Packet::new_unchecked(message);
    let mut walk: NameIter<'_> = packet.parse_name(slice);
    same(walk.steps(), 0);
    for &label in labels {
        same(walk.next(), Some(Ok(label)));
    }
    let last = if broken { Some(Err(Error)) } else { None };
    check_next((slice, message), &mut walk, last, steps);
    for _ in 0..2 {
        check_next((slice, message), &mut walk, None, steps);
    }
}

#[test]
fn names_in_messages() {
    // A message, where its name begins, its labels, whether it is broken, and the steps over it.
    const ROWS: &[(&[u8], usize, &[&[u8]], bool, usize)] = &[
        (&RESPONSE, 12, &[b"www", b"facebook", b"com"], false, 3),
        (&RESPONSE, 34, &[b"www", b"facebook", b"com"], false, 4),
        (
            &RESPONSE,
            46,
            &[b"star-mini", b"c10r", b"facebook", b"com"],
            false,
            5,
        ),
        (
            &RESPONSE,
            63,
            &[b"star-mini", b"c10r", b"facebook", b"com"],
            false,
            6,
        ),
        (&MEETING_POINTERS, 12, &[b"a", b"b", b"a"], true, 5),
        (&POINTER_TO_ITSELF, 12, &[], true, 1),
        // Forward, and then into the first part.
        (&POINTER_FORWARD, 12, &[b"a\x00"], false, 3),
        // The label is cut by its window.
        (&CUT_LABEL, 16, &[], true, 2),
        (&FALLING_POINTERS, 5, &[], false, 3),
        (&POINTER_INTO_ITSELF, 12, &[], true, 1),
    ];
    for &(message, at, labels, broken, steps) in ROWS {
        holds_of(at, at <= message.len());
        check(message, &message[at..], labels, broken, steps);
    }
}

#[test]
fn slices_outside_the_message() {
    const BROKEN: &[&[u8]] = &[&[], &[0x40], &[0x80, 0x00], &[0xc0, 0x0c], &[0xc0]];
    let zeros = [0; 12];
    check(&zeros, &[1, 0x78, 0xc0, 0x0b], &[b"x"], false, 2);
    for &slice in BROKEN {
        check(&zeros, slice, &[], true, 0);
    }
    check(&[], &[0], &[], false, 0);
}

// A copy gives what is still to come, and leaves the walk where it is. The view may be of octets that are lent for
// writing.
#[test]
fn a_copy_of_a_walk() {
    let mut message = RESPONSE;
    let packet = Packet::new_unchecked(message.as_mut_slice());
    let mut walk = packet.parse_name(b"\xc0\x0c");
    same(walk.next(), Some(Ok(b"www".as_slice())));
    let Ok(mut copy) = walk.try_clone() else {
        return fail("a copy");
    };
    for label in [b"facebook".as_slice(), b"com"] {
        same(copy.next(), Some(Ok(label)));
    }
    same(copy.next(), None);
    same(walk.next(), Some(Ok(b"facebook".as_slice())));
    same(packet.name_refusal(b"\xc0\x0c"), None);
}

#[test]
fn the_greatest_target() {
    let zeros = [0; 16384];
    check(&zeros, &[0xff, 0xff], &[], false, 1);
    check(&zeros[..16383], &[0xff, 0xff], &[], true, 0);
    compare_walk(&zeros, &[0xff, 0xff]);
    compare_walk(&zeros[..16383], &[0xff, 0xff]);
}

// A zero byte, then pointers, each to the one before it and the first to the zero byte.
#[test]
fn five_thousand_pointers() {
    let mut message = [0; 10_001];
    for k in 0..5000usize {
        let target = (2 * k).saturating_sub(1);
        message[2 * k + 1] = 0xc0 | (target >> 8) as u8;
        message[2 * k + 2] = (target & 0xff) as u8;
    }
    check(&message, &message[9999..], &[], false, 5000);
}

// What a walk meets at the front of a window.
enum Step<'a> {
    // A label, and the window behind it.
    Label(&'a [u8], &'a [u8]),
    // The place that a pointer leads to, and the window from there on.
    Pointer(usize, &'a [u8]),
    End,
    Broken,
}

// One step over a window; a pointer leads to below `above`.
fn plain_step<'a>(message: &'a [u8], window: &'a [u8], above: usize) -> Step<'a> {
    match window {
        [0, ..] => Step::End,
        [len, rest @ ..] if *len < 64 && *len as usize <= rest.len() => {
            Step::Label(&rest[..*len as usize], &rest[*len as usize..])
        }
        [high, low, ..] if *high >= 0xc0 => {
            let target = (*high as usize - 0xc0) * 256 + *low as usize;
            if target >= above || above > message.len() {
                return Step::Broken;
            }
            Step::Pointer(target, &message[target..above])
        }
        _ => Step::Broken,
    }
}

// It is told why the name that begins in a slice breaks, exactly where it does.
fn check_told(message: &[u8], slice: &[u8], broken: bool) {
    let refusal = Packet::new_unchecked(message).name_refusal(slice);
    same_of((slice, message), refusal.is_some(), broken);
}

// Compares the walk over the name that begins in a slice with one along the falling path, a window after another. Each
// turn is one step.
fn compare_walk<'a>(message: &'a [u8], slice: &'a [u8]) {
    let packet = Packet::new_unchecked(message);
    let mut walk = packet.parse_name(slice);
    let mut window = slice;
    let mut above = message.len();
    for turn in 0..16usize {
        match plain_step(message, window, above) {
            Step::Label(label, behind) => {
                same_of((slice, message), walk.next(), Some(Ok(label)));
                window = behind;
            }
            Step::Pointer(target, below) => {
                window = below;
                above = target;
            }
            Step::End => {
                check_next((slice, message), &mut walk, None, turn);
                check_told(message, slice, false);
                return;
            }
            Step::Broken => {
                check_next((slice, message), &mut walk, Some(Err(Error)), turn);
                check_told(message, slice, true);
                return;
            }
        }
    }
    fail("too many steps");
}

// Compares the walks from each place of a message.
fn compare_walks(message: &[u8]) {
    for offset in 0..=message.len() {
        compare_walk(message, &message[offset..]);
    }
}

// Compares the walks over a name outside a message, and over each shorter part of it.
fn compare_outside(message: &[u8], slice: &[u8]) {
    for len in 0..=slice.len() {
        compare_walk(message, &slice[..len]);
    }
}

#[test]
fn names_outside_the_message_at_each_shorter_length() {
    // Behind labels: byte 0; a pointer to labels, to another pointer, to the last byte, and past it.
    const OUTSIDE: &[&[u8]] = &[
        b"\x03www\x08facebook\x03com\x00",
        b"\x03ftp\xc0\x10",
        b"\x01a\x02bc\xc0\x3f",
        b"\x01a\xc0\x4e",
        b"\x01a\xc0\x4f",
    ];
    for &slice in OUTSIDE {
        for len in 0..=RESPONSE.len() {
            compare_outside(&RESPONSE[..len], slice);
        }
        compare_outside(&MEETING_POINTERS, slice);
    }
}

const SYMBOLS: [u8; 7] = [0x00, 0x01, 0x3f, 0x40, 0xc0, 0xc1, 0x02];

// The number's digit to base 7 at a place, as a symbol.
fn symbol(number: u32, place: u32) -> u8 {
    SYMBOLS[(number / place.max(1) % 7) as usize]
}

#[test]
fn all_short_messages_and_offsets() {
    for number in 0..16807u32 {
        let whole = [
            symbol(number, 1),
            symbol(number, 7),
            symbol(number, 49),
            symbol(number, 343),
            symbol(number, 2401),
        ];
        for len in 0..6usize {
            compare_walks(&whole[..len]);
        }
    }
}

// What a byte of a message is set to, one byte at a time.
const DAMAGE: &[u8] = &[0x00, 0x40, 0x7f, 0x80, 0xc0, 0xff];

// Compares the walks over each shorter part of a message, and over each copy of it in which one byte is damaged.
fn compare_damaged(message: &[u8]) {
    holds_of(message, message.len() <= 80);
    for len in 0..=message.len() {
        compare_walks(&message[..len]);
    }
    for at in 0..message.len() {
        for &value in DAMAGE {
            compare_walks(&damaged(message, at, value)[..message.len()]);
        }
    }
}

#[test]
fn names_of_cut_and_of_damaged_messages() {
    const ROWS: &[&[u8]] = &[
        &RESPONSE,
        &MEETING_POINTERS,
        &POINTER_TO_ITSELF,
        &POINTER_FORWARD,
        &CUT_LABEL,
        &FALLING_POINTERS,
        &POINTER_INTO_ITSELF,
    ];
    for &message in ROWS {
        compare_damaged(message);
    }
}
