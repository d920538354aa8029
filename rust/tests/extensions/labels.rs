// Made from crates/tests_extensions/src/labels.rt by rust/erase.
//! Stacks of MPLS labels (RFC 4950 section 3, RFC 3032 section 2.1).

use crate::testing::{prints, same, same_of, takes_writes};
use control_wire::extensions::{LabelEntry, LabelRefusal, LabelStack, mpls};

// The octets of a buffer before it is written into.
const FILLS: &[u8] = &[0x00, 0xff, 0x2a, 0xa5];

// 05dc1 in 20 bits, 6 in 3, 0 in one, and fe in 8: 05dc1000 + c00 + fe = 05dc1cfe.
const OUTER: LabelEntry = LabelEntry {
    label: 24_001,
    traffic_class: 6,
    bottom: false,
    ttl: 254,
};

// 3000 + e00 + 100 + ff = 3fff.
const INNER: LabelEntry = LabelEntry {
    label: 3,
    traffic_class: 7,
    bottom: true,
    ttl: 255,
};

const LARGEST: LabelEntry = LabelEntry {
    label: 0xf_ffff,
    traffic_class: 7,
    bottom: false,
    ttl: 254,
};

const SMALLEST: LabelEntry = LabelEntry {
    label: 0,
    traffic_class: 0,
    bottom: false,
    ttl: 0,
};

#[test]
fn stacks_have_their_labels_and_are_written_as_they_were() {
    let rows: &[(&[u8], &[LabelEntry])] = &[
        (&[], &[]),
        (
            &[0x05, 0xdc, 0x1c, 0xfe, 0x00, 0x00, 0x3f, 0xff],
            &[OUTER, INNER],
        ),
        (&[0xff, 0xff, 0xfe, 0xfe], &[LARGEST]),
        (
            &[0x00, 0x00, 0x00, 0x00, 0x00, 0x00, 0x3f, 0xff],
            &[SMALLEST, INNER],
        ),
    ];
    for (payload, entries) in rows {
        let read = LabelStack::parse(payload);
        let Ok(stack) = read else {
            same_of(payload, read.err(), None);
            continue;
        };
        same_of(payload, stack.len(), entries.len());
        let mut left = stack.iter();
        for entry in *entries {
            same_of(payload, left.next(), Some(*entry));
        }
        same_of(payload, left.next(), None);
    }
}

#[test]
fn a_stack_that_ends_within_an_entry_is_refused() {
    let rows: &[&[u8]] = &[
        &[0x00, 0x01, 0x01, 0x01, 0x00],
        &[0x00],
        &[0x00, 0x01, 0x01, 0x01, 0x00, 0x01, 0x01],
    ];
    for payload in rows {
        same_of(payload, LabelStack::parse(payload), Err(LabelRefusal));
    }
}

#[test]
fn a_stack_is_written_over_the_front() {
    for &fill in FILLS {
        let mut octets = [fill; 10];
        mpls::emit(&[OUTER, INNER], &mut octets);
        let wanted = [0x05, 0xdc, 0x1c, 0xfe, 0x00, 0x00, 0x3f, 0xff, fill, fill];
        same_of(fill, octets, wanted);
        let mut octets = [fill; 5];
        mpls::emit(&[], &mut octets);
        same(octets, [fill; 5]);
    }
}

#[test]
fn an_entry_is_written_over_the_front() {
    let rows: &[(LabelEntry, [u8; 4])] = &[
        (OUTER, [0x05, 0xdc, 0x1c, 0xfe]),
        (INNER, [0x00, 0x00, 0x3f, 0xff]),
        (LARGEST, [0xff, 0xff, 0xfe, 0xfe]),
        (SMALLEST, [0x00, 0x00, 0x00, 0x00]),
    ];
    for (entry, wanted) in rows {
        for &fill in FILLS {
            let mut octets = [fill; 6];
            if entry.label < 0x10_0000 && entry.traffic_class < 8 {
                entry.emit_into(&mut octets);
            }
            same_of(entry, &octets[..4], &wanted[..]);
            same_of(entry, &octets[4..], &[fill, fill][..]);
        }
    }
}

#[test]
fn texts_of_entries_and_of_the_refusal() {
    prints(&OUTER, "label=24001 traffic_class=6 bottom=false ttl=254");
    prints(&INNER, "label=3 traffic_class=7 bottom=true ttl=255");
    takes_writes(&INNER, 8);
    prints(&LabelRefusal, "the stack of labels ends within an entry");
    takes_writes(&LabelRefusal, 1);
}
