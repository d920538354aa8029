// Made from crates/tests_reassembly/src/reassembling/options.rt by rust/erase.
// Hop-by-hop options before the fragments of a datagram.

use super::{Outcome, add, fragment, part, told, v6};
use crate::testing::same_of;
use reassembly::{Answer, Fragment, MOST_OPTIONS_LEN, Reassembly, Refusal, Whole};

// A router alert, and padding.
const ALERT: &[u8] = &[5, 2, 0, 0, 1, 0];

const PADDING: &[u8] = &[1, 4, 0, 0, 0, 0];

// A third of a datagram, with these options.
fn third<'a>(place: u16, hop_by_hop: Option<&'a [u8]>) -> Fragment<'a> {
    let start = 8 * place.min(2);
    Fragment {
        addresses: v6(),
        hop_by_hop,
        ..fragment(7, start, start < 16, part(start, 8))
    }
}

fn options_of(whole: &Whole) -> Option<&[u8]> {
    whole.hop_by_hop.as_ref().map(|options| options.as_slice())
}

// Those of the first stay, whatever the others have and in whatever order they come.
#[test]
fn options_of_the_fragment_at_offset_0() {
    const ROWS: &[[Option<&[u8]>; 3]] = &[
        [Some(ALERT), Some(PADDING), None],
        [Some(PADDING), None, Some(ALERT)],
        [None, Some(ALERT), Some(ALERT)],
    ];
    for row in ROWS {
        for order in [[0usize, 1, 2], [1, 0, 2], [2, 1, 0]] {
            let mut reassembly = Reassembly::new();
            for (turn, &place) in order.iter().enumerate() {
                let one = third(place as u16, row[place.min(2)]);
                match add(&mut reassembly, 1, &one) {
                    Ok(Answer::Whole(whole)) => {
                        same_of(row, turn, 2);
                        same_of(row, options_of(&whole), row[0]);
                    }
                    answer => {
                        same_of(row, told(&answer), Outcome::Incomplete);
                        same_of(row, turn < 2, true);
                    }
                }
            }
        }
    }
}

// None are kept of the others, and those of a fragment that comes again are not looked at.
#[test]
fn options_that_are_kept() {
    let mut reassembly = Reassembly::new();
    for one in [
        third(1, Some(ALERT)),
        third(0, Some(ALERT)),
        third(0, Some(PADDING)),
        third(0, None),
    ] {
        let answer = add(&mut reassembly, 1, &one);
        same_of(one, told(&answer), Outcome::Incomplete);
    }
    for datagram in reassembly.datagrams() {
        same_of((), datagram.pieces().len(), 2);
        for piece in datagram.pieces() {
            let want = if piece.frag_offset() == 0 {
                Some(ALERT)
            } else {
                None
            };
            same_of((), piece.hop_by_hop(), want);
        }
    }
}

// One more byte than a header has is refused, wherever the fragment is.
#[test]
fn the_most_options() {
    const LONG: &[u8] = &[0; MOST_OPTIONS_LEN + 1];
    let mut reassembly = Reassembly::new();
    for place in [0, 1] {
        let more = third(place, Some(LONG));
        let answer = add(&mut reassembly, 1, &more);
        same_of(place, told(&answer), Outcome::Refused(Refusal::Options));
        let most = third(place, Some(&LONG[1..]));
        let answer = add(&mut reassembly, 1, &most);
        same_of(place, told(&answer), Outcome::Incomplete);
    }
    match add(&mut reassembly, 1, &third(2, None)) {
        Ok(Answer::Whole(whole)) => {
            same_of((), options_of(&whole), Some(&LONG[1..]));
        }
        answer => same_of((), told(&answer), Outcome::Whole(24)),
    }
}
