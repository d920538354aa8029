//! ICMPv4 and IGMP.

use crate::measure::{prints, reads, writes};
use crate::messages::ipv4_header;
use crate::random::many;
use control_wire::icmpv4::{DstUnreachable, Packet, Repr, TimeExceeded};
use control_wire::{ChecksumCapabilities, Duration, Ipv4Address, igmp};

fn write(message: &Repr<'_>) -> Vec<u8> {
    let mut octets = vec![0; message.buffer_len()];
    message.emit_into(&mut octets, &ChecksumCapabilities::default());
    octets
}

// An echo request or its reply.
fn echoes(seed: u64, len: usize) -> Vec<Repr<'static>> {
    many(seed, |random, place| {
        let (ident, seq_no, data) = (random.u16(), random.u16(), random.leaked(len));
        if place % 2 == 0 {
            Repr::EchoRequest {
                ident,
                seq_no,
                data,
            }
        } else {
            Repr::EchoReply {
                ident,
                seq_no,
                data,
            }
        }
    })
}

fn errors(seed: u64) -> Vec<Repr<'static>> {
    many(seed, |random, place| {
        let data = random.leaked(8);
        let header = ipv4_header(random, data.len());
        if place % 2 == 0 {
            Repr::DstUnreachable {
                reason: DstUnreachable::from(random.octet() % 18),
                header,
                data,
            }
        } else {
            Repr::TimeExceeded {
                reason: TimeExceeded::from(random.octet() % 4),
                header,
                data,
            }
        }
    })
}

fn members(seed: u64) -> Vec<igmp::Repr> {
    many(seed, |random, place| {
        let mut octets = random.ipv4().octets();
        octets[0] = 224 + octets[0] % 16;
        let group_addr = Ipv4Address::from_octets(octets);
        match place % 4 {
            0 => igmp::Repr::MembershipQuery {
                max_resp_time: Duration::from_millis(100 + 100 * random.below(255)),
                group_addr,
                version: igmp::IgmpVersion::Version2,
            },
            1 => igmp::Repr::MembershipReport {
                group_addr,
                version: igmp::IgmpVersion::Version1,
            },
            2 => igmp::Repr::MembershipReport {
                group_addr,
                version: igmp::IgmpVersion::Version2,
            },
            _ => igmp::Repr::LeaveGroup { group_addr },
        }
    })
}

// Messages that are refused: with a wrong checksum, cut, or of another type.
#[cfg(feature = "later")]
fn damaged(messages: &[Vec<u8>]) -> Vec<Vec<u8>> {
    let mut damaged = messages.to_vec();
    for (place, octets) in damaged.iter_mut().enumerate() {
        match place % 4 {
            0 => octets[2] ^= 1,
            1 => octets.truncate(place % 8),
            2 => octets[0] = 99,
            _ => octets[3] ^= 0x80,
        }
    }
    damaged
}

/// The cases.
pub fn cases() {
    let caps = &ChecksumCapabilities::default();
    let parse = |octets: &'static Vec<u8>| Repr::parse(&Packet::new_checked(octets)?, caps);
    let emit = |message: &Repr<'_>, out: &mut [u8]| message.emit_into(out, caps);
    let echoes_of_56 = echoes(1, 56);
    let errors = errors(3);
    let texts: Vec<Repr<'_>> = echoes_of_56[..16]
        .iter()
        .chain(&errors[..16])
        .copied()
        .collect();
    for (name_of_parse, name_of_emit, messages) in [
        ("icmpv4_echo_parse", "icmpv4_echo_emit", echoes_of_56),
        (
            "icmpv4_echo_of_1400_parse",
            "icmpv4_echo_of_1400_emit",
            echoes(2, 1_400),
        ),
        ("icmpv4_error_parse", "icmpv4_error_emit", errors),
    ] {
        let octets: &'static Vec<Vec<u8>> =
            Box::leak(Box::new(messages.iter().map(write).collect()));
        reads(name_of_parse, octets, parse);
        writes(name_of_emit, &messages, Repr::buffer_len, emit);
        #[cfg(feature = "later")]
        if name_of_parse == "icmpv4_echo_parse" {
            reads("icmpv4_parse_or_refusal", octets, |octets| {
                Repr::parse_or_refusal(&Packet::new_unchecked(octets), caps)
            });
            let damaged = damaged(octets);
            reads("icmpv4_refusal", &damaged, |octets| {
                Repr::refusal(&Packet::new_unchecked(octets), caps)
            });
        }
    }
    prints("icmpv4_display", &texts);
    igmp_cases();
}

fn igmp_cases() {
    let messages = members(4);
    let octets: Vec<Vec<u8>> = messages
        .iter()
        .map(|message| {
            let mut octets = vec![0; message.buffer_len()];
            message.emit_into(&mut octets);
            octets
        })
        .collect();
    reads("igmp_parse", &octets, |octets| {
        igmp::Repr::parse(&igmp::Packet::new_checked(octets)?)
    });
    writes(
        "igmp_emit",
        &messages,
        igmp::Repr::buffer_len,
        |message, out| message.emit_into(out),
    );
    reads("igmp_verify_checksum", &octets, |octets| {
        igmp::Packet::new_unchecked(octets).verify_checksum()
    });
    #[cfg(feature = "later")]
    {
        reads("igmp_parse_or_refusal", &octets, |octets| {
            igmp::Repr::parse_or_refusal(&igmp::Packet::new_unchecked(octets))
        });
        let damaged = damaged(&octets);
        reads("igmp_refusal", &damaged, |octets| {
            igmp::Repr::refusal(&igmp::Packet::new_unchecked(octets))
        });
    }
    prints("igmp_display", &messages);
}
