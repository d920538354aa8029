// Made from crates/tests_reassembly/src/reassembling/captured.rt by rust/erase.
// Datagrams that Linux cut, as `ping -s 1600` and a UDP socket sent them over a link that takes 1,500 bytes.

use super::{add, told};
use crate::testing::same_of;
use control_wire::{IpProtocol, checksum};
#[allow(unused_imports)]
use rattle_std::prelude::*;
use reassembly::{Answer, Fragment, Reassembly};

// The headers of the two packets, the front of the payload, the bytes of each in it, and how it goes on: by bytes that
// count up, or by zeros.
struct Sent {
    heads: [&'static [u8]; 2],
    front: &'static [u8],
    cut: usize,
    counts: bool,
    protocol: IpProtocol,
}

const PING: Sent = Sent {
    heads: [
        &[
            0x45, 0x00, 0x05, 0xdc, 0xbb, 0x13, 0x20, 0x00, 0x40, 0x01, 0x15, 0xda, 192, 0, 2, 50,
            192, 0, 2, 1,
        ],
        &[
            0x45, 0x00, 0x00, 0x94, 0xbb, 0x13, 0x00, 0xb9, 0x40, 0x01, 0x3a, 0x69, 192, 0, 2, 50,
            192, 0, 2, 1,
        ],
    ],
    front: &[
        0x08, 0x00, 0xcc, 0xaa, 0x13, 0xf9, 0x00, 0x01, 0x0a, 0x9c, 0x09, 0x6b, 0, 0, 0, 0, 0xc9,
        0x11, 0x0d, 0, 0, 0, 0, 0,
    ],
    cut: 1_480,
    counts: true,
    protocol: IpProtocol::Icmp,
};

const DNS: Sent = Sent {
    heads: [
        &[
            0x45, 0x00, 0x05, 0xdc, 0x48, 0x04, 0x20, 0x00, 0x40, 0x11, 0x88, 0xd9, 192, 0, 2, 50,
            192, 0, 2, 1,
        ],
        &[
            0x45, 0x00, 0x00, 0x94, 0x48, 0x04, 0x00, 0xb9, 0x40, 0x11, 0xad, 0x68, 192, 0, 2, 50,
            192, 0, 2, 1,
        ],
    ],
    front: &[0x81, 0xd4, 0x00, 0x35, 0x06, 0x48, 0xed, 0x20],
    cut: 1_480,
    counts: false,
    protocol: IpProtocol::Udp,
};

const PING_V6: Sent = Sent {
    heads: [
        &[
            0x60, 0x06, 0xdf, 0xed, 0x05, 0xb0, 0x2c, 0x40, 0x20, 0x01, 0x0d, 0xb8, 0, 1, 0, 0, 0,
            0, 0, 0, 0, 0, 0, 7, 0x20, 0x01, 0x0d, 0xb8, 0, 1, 0, 0, 0, 0, 0, 0, 0, 0, 0, 1, 0x3a,
            0x00, 0x00, 0x01, 0x82, 0x9a, 0x60, 0xd7,
        ],
        &[
            0x60, 0x06, 0xdf, 0xed, 0x00, 0xa8, 0x2c, 0x40, 0x20, 0x01, 0x0d, 0xb8, 0, 1, 0, 0, 0,
            0, 0, 0, 0, 0, 0, 7, 0x20, 0x01, 0x0d, 0xb8, 0, 1, 0, 0, 0, 0, 0, 0, 0, 0, 0, 1, 0x3a,
            0x00, 0x05, 0xa8, 0x82, 0x9a, 0x60, 0xd7,
        ],
    ],
    front: &[
        0x80, 0x00, 0xf9, 0x83, 0x13, 0xfa, 0x00, 0x01, 0x0a, 0x9c, 0x09, 0x6b, 0, 0, 0, 0, 0xc2,
        0x38, 0x0d, 0, 0, 0, 0, 0,
    ],
    cut: 1_448,
    counts: true,
    protocol: IpProtocol::Icmpv6,
};

impl Sent {
    // The byte of the payload at a place.
    fn byte(&self, place: usize) -> u8 {
        match self.front.get(place) {
            Some(byte) => *byte,
            None if self.counts => (place.saturating_sub(8) % 256) as u8,
            None => 0,
        }
    }

    // The first packet, or the second.
    fn packet(&self, second: bool) -> Vec<u8> {
        let mut octets = Vec::new();
        let (start, end) = if second {
            (self.cut, 1_608)
        } else {
            (0, self.cut)
        };
        let _ = octets.extend_from_slice(self.heads[second as usize]);
        for place in start..end {
            let _ = octets.push(self.byte(place));
        }
        octets
    }
}

fn parse(octets: &[u8]) -> Option<Fragment<'_>> {
    match octets.first() {
        Some(0x45) => Fragment::parse_v4(octets),
        _ => Fragment::parse_v6(octets),
    }
}

// The packets in one order, and in the other.
fn check(sent: &Sent) {
    let packets = [sent.packet(false), sent.packet(true)];
    for first in [0usize, 1] {
        let mut reassembly = Reassembly::new();
        for i in [first, 1 - first] {
            let Some(part) = parse(packets[i].as_slice()) else {
                return same_of(i, false, true);
            };
            match add(&mut reassembly, i as u64 + 1, &part) {
                Ok(Answer::Whole(whole)) => {
                    same_of(first, i, 1 - first);
                    same_of(first, whole.protocol, sent.protocol);
                    same_of(first, whole.numbers.as_slice(), &[1, 2]);
                    same_of(first, whole.payload.len(), 1_608);
                    for (place, byte) in whole.payload.iter().enumerate() {
                        same_of(place, *byte, sent.byte(place));
                    }
                }
                answer => {
                    same_of(first, told(&answer), super::Outcome::Incomplete);
                    same_of(first, i, first);
                }
            }
        }
    }
}

#[test]
fn datagrams_that_linux_cut() {
    for sent in [&PING, &DNS, &PING_V6] {
        check(sent);
    }
}
