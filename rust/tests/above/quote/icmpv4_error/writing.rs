// Made from crates/tests_above/src/quote/icmpv4_error/writing.rt by rust/erase.
//! How errors are written.

use super::{ALL, DATAGRAM, TIME_EXCEEDED, about};
use crate::testing::{same, same_of};
use control_wire::quotes::icmpv4_error::{Kind, MAX_QUOTED, Repr};

#[test]
fn error_is_written_over_other_octets() {
    for before in [0x00, 0x2a, 0xff] {
        let mut octets = [before; 36];
        let error = about(Kind::TimeExceeded, 0, 0, DATAGRAM);
        same_of(before, error.buffer_len(), 36);
        error.emit_into(&mut octets, &ALL);
        same_of(before, &octets[..], TIME_EXCEEDED);
    }
}

#[test]
fn error_quotes_at_most_548_bytes() {
    let mut datagram = [0x2a; 600];
    datagram[..28].copy_from_slice(DATAGRAM);
    let error = about(Kind::DstUnreachable, 3, 0, &datagram);
    same(error.buffer_len(), 556);
    let mut octets = [0xa5; 556];
    error.emit_into(&mut octets, &ALL);
    let written = about(Kind::DstUnreachable, 3, 0, &datagram[..MAX_QUOTED]);
    same(Repr::parse(&octets, &ALL), Ok(written));
}
