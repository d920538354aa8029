// Made from crates/tests_reassembly/src/reassembling/limits.rt by rust/erase.
// As much as is kept, and more.

use super::{Outcome, add, fragment, told};
use crate::testing::same_of;
use reassembly::{Reassembly, Refusal};

const BYTES: &[u8] = &[0x5a; 8_192];

#[test]
fn a_datagram_of_65535_bytes() {
    let mut reassembly = Reassembly::new();
    for i in 0..7u16 {
        let part = fragment(1, 8_192 * i, true, BYTES);
        same_of(
            i,
            told(&add(&mut reassembly, 1, &part)),
            Outcome::Incomplete,
        );
    }
    let more = fragment(1, 57_344, false, BYTES);
    same_of(
        (),
        told(&add(&mut reassembly, 2, &more)),
        Outcome::Refused(Refusal::TooLong),
    );
    let most = fragment(1, 57_344, false, &BYTES[1..]);
    same_of(
        (),
        told(&add(&mut reassembly, 3, &most)),
        Outcome::Whole(65_535),
    );
}

#[test]
fn a_datagram_of_256_fragments_and_one_more() {
    let mut reassembly = Reassembly::new();
    for i in 1..257u16 {
        for ident in [1, 2] {
            let part = fragment(ident, 8 * i, true, &BYTES[..8]);
            same_of(
                i,
                told(&add(&mut reassembly, 1, &part)),
                Outcome::Incomplete,
            );
        }
    }
    let again = fragment(1, 8, true, &BYTES[..8]);
    same_of(
        (),
        told(&add(&mut reassembly, 2, &again)),
        Outcome::Incomplete,
    );
    let more = fragment(1, 0, true, &BYTES[..8]);
    same_of(
        (),
        told(&add(&mut reassembly, 2, &more)),
        Outcome::Refused(Refusal::TooMany),
    );
    same_of(
        (),
        told(&add(&mut reassembly, 3, &again)),
        Outcome::Refused(Refusal::Discarded),
    );
    same_of((), reassembly.datagrams().len(), 2);
}

// The one that began first makes room, also where it is discarded.
#[test]
fn more_datagrams_than_are_kept() {
    let mut reassembly = Reassembly::new();
    for ident in 0..64u32 {
        let part = fragment(ident, 8, true, &BYTES[..8]);
        same_of(
            ident,
            told(&add(&mut reassembly, ident as u64, &part)),
            Outcome::Incomplete,
        );
    }
    let longer = fragment(1, 8, true, &BYTES[..16]);
    same_of(
        (),
        told(&add(&mut reassembly, 70, &longer)),
        Outcome::Refused(Refusal::Overlap),
    );
    for (i, datagram) in reassembly.datagrams().iter().enumerate() {
        same_of(i, datagram.is_discarded(), i == 1);
    }
    let first = fragment(0, 0, true, &BYTES[..8]);
    same_of(
        (),
        told(&add(&mut reassembly, 71, &first)),
        Outcome::Incomplete,
    );
    for (ident, number) in [(64, 71), (65, 0), (66, 2), (67, 3)] {
        let part = fragment(ident, 8, true, &BYTES[..8]);
        same_of(
            ident,
            told(&add(&mut reassembly, 80, &part)),
            Outcome::Drops(number),
        );
    }
    let first = reassembly.datagrams().first();
    same_of((), first.map(|datagram| datagram.key().ident), Some(4));
    same_of((), reassembly.datagrams().len(), 64);
    same_of(
        (),
        told(&add(&mut reassembly, 90, &longer)),
        Outcome::Drops(4),
    );
}
