// Made from crates/tests_reassembly/src/reassembling.rt by rust/erase.
mod captured;
mod limits;
mod options;

use crate::testing::{prints, same_of};
use control_wire::frames::Addresses;
use control_wire::{IpProtocol, Ipv4Address, Ipv6Address};
use reassembly::{Answer, Fault, Fragment, Reassembly, Refusal};

// An answer by what a table has of it: of a datagram that is dropped the number of its first packet, and of one that is
// whole its number of bytes.
#[derive(Debug, PartialEq, Clone, Copy)]
enum Outcome {
    Incomplete,
    Drops(u64),
    Whole(usize),
    Refused(Refusal),
    Fault,
}

fn told(answer: &Result<Answer, Fault>) -> Outcome {
    match answer {
        Ok(Answer::Incomplete(None)) => Outcome::Incomplete,
        Ok(Answer::Incomplete(Some(dropped))) => match dropped.pieces().first() {
            Some(piece) => Outcome::Drops(piece.number()),
            None => Outcome::Drops(0),
        },
        Ok(Answer::Whole(whole)) => Outcome::Whole(whole.payload.len()),
        Ok(Answer::Refused(refusal)) => Outcome::Refused(*refusal),
        Err(_) => Outcome::Fault,
    }
}

fn v4() -> Addresses {
    Addresses::V4(
        Ipv4Address::new(192, 0, 2, 1),
        Ipv4Address::new(192, 0, 2, 2),
    )
}

fn v6() -> Addresses {
    Addresses::V6(Ipv6Address::UNSPECIFIED, Ipv6Address::from_octets([1; 16]))
}

// A fragment of a datagram of this number.
fn fragment(ident: u32, frag_offset: u16, more_frags: bool, payload: &[u8]) -> Fragment<'_> {
    Fragment {
        addresses: v4(),
        protocol: IpProtocol::Udp,
        ident,
        frag_offset,
        more_frags,
        hop_by_hop: None,
        payload,
    }
}

// The payload of a datagram.
const TEXT: &[u8] = b"Fragments may come in any order.";

// The fragments that it is cut into: offset, end, and whether more follow.
const CUTS: &[(u16, usize, bool)] = &[(0, 8, true), (8, 24, true), (24, 32, false)];

// Adds a fragment, and where memory is refused, once more: the refusal changed nothing.
fn add(reassembly: &mut Reassembly, number: u64, fragment: &Fragment<'_>) -> Result<Answer, Fault> {
    match reassembly.add(number, fragment) {
        Err(Fault::Memory) => reassembly.add(number, fragment),
        answer => answer,
    }
}

#[test]
fn fragments_in_any_order() {
    const ORDERS: &[[usize; 3]] = &[
        [0, 1, 2],
        [0, 2, 1],
        [1, 0, 2],
        [1, 2, 0],
        [2, 0, 1],
        [2, 1, 0],
    ];
    let mut reassembly = Reassembly::new();
    for order in ORDERS {
        for (turn, &cut) in order.iter().enumerate() {
            let (start, end, more) = CUTS[cut.min(2)];
            let part = TEXT.get(start as usize..end).unwrap_or(&[]);
            let answer = add(&mut reassembly, cut as u64, &fragment(7, start, more, part));
            match answer {
                Ok(Answer::Whole(whole)) => {
                    same_of(order, turn, 2);
                    same_of(order, whole.payload.as_slice(), TEXT);
                    same_of(order, whole.numbers.as_slice(), &[0, 1, 2]);
                    same_of(order, whole.addresses, v4());
                    same_of(order, whole.protocol, IpProtocol::Udp);
                }
                answer => {
                    same_of(order, told(&answer), Outcome::Incomplete);
                    same_of(order, turn < 2, true);
                }
            }
        }
        same_of(order, reassembly.datagrams().len(), 0);
    }
}

// What a fragment is answered that comes after some others: its offset, its length, whether more follow, the answer,
// and what the next one at offset 0 of 8 bytes is answered.
type Row = (u16, usize, bool, Outcome, Outcome);

// Of a datagram of which bytes 8 to 24 came.
const AFTER_A_MIDDLE: &[Row] = &[
    (24, 8, true, Outcome::Incomplete, Outcome::Incomplete),
    (24, 8, false, Outcome::Incomplete, Outcome::Whole(32)),
    (8, 16, true, Outcome::Incomplete, Outcome::Incomplete),
    (
        8,
        16,
        false,
        Outcome::Refused(Refusal::Overlap),
        Outcome::Refused(Refusal::Discarded),
    ),
    (
        16,
        16,
        true,
        Outcome::Refused(Refusal::Overlap),
        Outcome::Refused(Refusal::Discarded),
    ),
    (
        0,
        16,
        true,
        Outcome::Refused(Refusal::Overlap),
        Outcome::Refused(Refusal::Discarded),
    ),
    (
        0,
        32,
        true,
        Outcome::Refused(Refusal::Overlap),
        Outcome::Refused(Refusal::Discarded),
    ),
    (
        16,
        1,
        false,
        Outcome::Refused(Refusal::Overlap),
        Outcome::Refused(Refusal::Discarded),
    ),
    (
        8,
        0,
        true,
        Outcome::Refused(Refusal::Empty),
        Outcome::Incomplete,
    ),
    (
        0,
        8,
        false,
        Outcome::Refused(Refusal::Unfragmented),
        Outcome::Incomplete,
    ),
    (
        24,
        7,
        true,
        Outcome::Refused(Refusal::Length),
        Outcome::Incomplete,
    ),
    (
        65_528,
        8,
        false,
        Outcome::Refused(Refusal::TooLong),
        Outcome::Incomplete,
    ),
    (65_528, 7, false, Outcome::Incomplete, Outcome::Incomplete),
];

// Of a datagram whose last fragment came, bytes 8 to 24.
const AFTER_AN_END: &[Row] = &[
    (8, 16, false, Outcome::Incomplete, Outcome::Whole(24)),
    (
        24,
        8,
        true,
        Outcome::Refused(Refusal::End),
        Outcome::Refused(Refusal::Discarded),
    ),
    (
        24,
        8,
        false,
        Outcome::Refused(Refusal::End),
        Outcome::Refused(Refusal::Discarded),
    ),
    (
        4,
        4,
        false,
        Outcome::Refused(Refusal::End),
        Outcome::Refused(Refusal::Discarded),
    ),
];

// The bytes of the payload at a place; behind its end those at its start.
fn part(start: u16, len: usize) -> &'static [u8] {
    let start = if start < 32 { start as usize } else { 0 };
    TEXT.get(start..start.saturating_add(len)).unwrap_or(&[])
}

fn check_rows(more_frags: bool, rows: &[Row]) {
    for (i, &(offset, len, more, want, then)) in rows.iter().enumerate() {
        let mut reassembly = Reassembly::new();
        let first = fragment(7, 8, more_frags, part(8, 16));
        let answer = add(&mut reassembly, 1, &first);
        same_of(i, told(&answer), Outcome::Incomplete);
        let second = fragment(7, offset, more, part(offset, len));
        same_of(i, told(&add(&mut reassembly, 2, &second)), want);
        let third = fragment(7, 0, true, part(0, 8));
        same_of(i, told(&add(&mut reassembly, 3, &third)), then);
    }
}

#[test]
fn fragments_after_others() {
    check_rows(true, AFTER_A_MIDDLE);
    check_rows(false, AFTER_AN_END);
}

// Other bytes at the same place, and the same bytes that another protocol names, are no repetition.
#[test]
fn fragments_at_the_same_place() {
    let first = fragment(7, 0, true, part(0, 8));
    let others = [
        Fragment {
            payload: part(8, 8),
            ..first
        },
        Fragment {
            addresses: v6(),
            protocol: IpProtocol::Icmpv6,
            ..first
        },
    ];
    for other in &others {
        let mut reassembly = Reassembly::new();
        let first = Fragment {
            addresses: other.addresses,
            ..first
        };
        same_of(
            (),
            told(&add(&mut reassembly, 1, &first)),
            Outcome::Incomplete,
        );
        same_of(
            (),
            told(&add(&mut reassembly, 2, &first)),
            Outcome::Incomplete,
        );
        let refused = Outcome::Refused(Refusal::Overlap);
        same_of((), told(&add(&mut reassembly, 3, other)), refused);
    }
}

// Fragments of another datagram by one field each; in IPv6 the protocol tells none apart, and that of the first names
// the payload.
#[test]
fn fragments_of_other_datagrams() {
    let first = fragment(7, 0, true, &TEXT[..8]);
    let last = fragment(7, 8, false, &TEXT[8..]);
    let others = [
        Fragment {
            addresses: v6(),
            ..last
        },
        Fragment {
            protocol: IpProtocol::Icmp,
            ..last
        },
        Fragment { ident: 8, ..last },
    ];
    let mut reassembly = Reassembly::new();
    same_of(
        (),
        told(&add(&mut reassembly, 1, &first)),
        Outcome::Incomplete,
    );
    for other in &others {
        same_of(
            (),
            told(&add(&mut reassembly, 2, other)),
            Outcome::Incomplete,
        );
    }
    same_of(
        (),
        told(&add(&mut reassembly, 3, &last)),
        Outcome::Whole(32),
    );
    same_of((), reassembly.datagrams().len(), 3);
    let first = Fragment {
        addresses: v6(),
        protocol: IpProtocol::Ipv6Opts,
        ..first
    };
    match add(&mut reassembly, 4, &first) {
        Ok(Answer::Whole(whole)) => {
            same_of((), whole.protocol, IpProtocol::Ipv6Opts);
            same_of((), whole.numbers.as_slice(), &[4, 2]);
        }
        answer => same_of((), told(&answer), Outcome::Whole(32)),
    }
}

#[test]
fn refusals_and_faults_print() {
    const ROWS: &[(Refusal, &str)] = &[
        (Refusal::Empty, "no payload"),
        (Refusal::Unfragmented, "a whole datagram"),
        (
            Refusal::Length,
            "a length that is no multiple of 8, and more fragments",
        ),
        (Refusal::TooLong, "bytes past the 65535 of a datagram"),
        (Refusal::Options, "hop-by-hop options longer than a header"),
        (Refusal::Discarded, "a datagram that was discarded"),
        (Refusal::Overlap, "bytes that another fragment has"),
        (Refusal::End, "bytes past the end of the datagram"),
        (Refusal::TooMany, "more fragments than are kept"),
    ];
    for (refusal, text) in ROWS {
        prints(refusal, text);
    }
    prints(&Fault::Memory, "no memory");
}
