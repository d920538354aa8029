// Made from crates/frame_wire/src/datagram/captured.rt by rust/erase.
//! Datagrams as far as they were captured.

use super::{Addresses, Datagram, Head, Refusal, head_v4, len_v6, read_v6};
use crate::frames::link::behind;
use crate::wirebase::{IPV6_HEADER_LEN, Ipv4Packet};

/// How much of a datagram was captured.
#[derive(Debug, PartialEq, Eq, Clone, Copy)]
pub enum Extent {
    /// All of it.
    Whole,
    /// Its start.
    Cut {
        /// The number of missing bytes by the datagram's own length, 1 or more.
        missing: usize,
    },
    /// An IPv4 datagram whose total length is 0, as captured on a machine that leaves segmentation to its network card:
    /// the payload extends to the end of the octets, and whether that is all of it is not known.
    Unstated,
}

/// A datagram as far as it was captured.
#[derive(Debug, PartialEq, Eq, Clone, Copy)]
pub struct Captured<'a> {
    /// The datagram. Its payload ends early where it is cut.
    pub datagram: Datagram<'a>,
    /// How much of it was captured.
    pub extent: Extent,
}

impl<'a> Captured<'a> {
    /// The IPv4 datagram at the start of the octets, whole or cut. A whole one is read as `Datagram::parse_v4` reads
    /// it. One that goes on past the octets has the payload that is there, and the number of missing bytes. One with a
    /// total length of 0 ends with the octets. Refused with `Cut` where the header itself, with its options, is cut,
    /// and where `Datagram::parse_v4` refuses for another reason; a fragment is a `Fragment`, also where it is cut.
    pub fn parse_v4(octets: &'a [u8]) -> Result<Captured<'a>, Refusal> {
        match Datagram::parse_v4(octets) {
            Ok(datagram) => Ok(Captured {
                datagram,
                extent: Extent::Whole,
            }),
            Err(Refusal::Cut(head)) => {
                let datagram = open_v4(octets, head)?;
                let total_len = Ipv4Packet::new_unchecked(octets).total_len() as usize;
                Ok(Captured {
                    datagram,
                    extent: Extent::Cut {
                        missing: total_len - octets.len(),
                    },
                })
            }
            Err(Refusal::TotalLen(0)) => {
                let datagram = open_v4(octets, head_v4(octets))?;
                Ok(Captured {
                    datagram,
                    extent: Extent::Unstated,
                })
            }
            Err(refusal) => Err(refusal),
        }
    }

    /// The IPv6 datagram at the start of the octets, whole or cut. A whole one is read as `Datagram::parse_v6` reads
    /// it. One that goes on past the octets has the payload that is there, and the number of missing bytes. Refused
    /// with `Cut` where a header that extends IPv6 is cut, and where `Datagram::parse_v6` refuses for another reason; a
    /// fragment is a `Fragment`, also where it is cut.
    pub fn parse_v6(octets: &'a [u8]) -> Result<Captured<'a>, Refusal> {
        match Datagram::parse_v6(octets) {
            Ok(datagram) => Ok(Captured {
                datagram,
                extent: Extent::Whole,
            }),
            Err(Refusal::Cut(head)) => cut_v6(octets, head),
            Err(refusal) => Err(refusal),
        }
    }
}

// An IPv4 datagram of which all octets after the header are payload.
fn open_v4<'a>(octets: &'a [u8], head: Head) -> Result<Datagram<'a>, Refusal> {
    let packet = Ipv4Packet::new_unchecked(octets);
    let header_len = packet.header_len() as usize;
    if octets.len() < header_len {
        return Err(Refusal::Cut(head));
    }
    if head.more_frags || head.frag_offset != 0 {
        return Err(Refusal::Fragment(head));
    }
    Ok(Datagram {
        addresses: head.addresses,
        protocol: head.protocol,
        hop_limit: packet.hop_limit(),
        hop_by_hop: None,
        payload: behind(octets, header_len),
    })
}

// An IPv6 datagram that lacks some of its bytes.
fn cut_v6<'a>(octets: &'a [u8], head: Head) -> Result<Captured<'a>, Refusal> {
    let Some(len) = len_v6(octets) else {
        return Err(Refusal::Cut(head));
    };
    let rest = behind(octets, IPV6_HEADER_LEN);
    match read_v6(octets, rest) {
        Ok(datagram) => Ok(Captured {
            datagram,
            extent: Extent::Cut {
                missing: len - rest.len(),
            },
        }),
        Err(refusal) => Err(told_of_cut(refusal, head)),
    }
}

// What is told of a datagram that is cut, by the refusal of what is there: a header that is cut is where the datagram
// is.
fn told_of_cut(refusal: Refusal, head: Head) -> Refusal {
    match refusal {
        Refusal::Extension(_) => Refusal::Cut(head),
        other => other,
    }
}
