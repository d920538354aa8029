// Made from crates/frame_wire/src/link/refusal.rt by rust/erase.
//! Why frames are refused.

use super::{
    Frame, Link, behind, family, frame_relay, ipnet, nflog, payload_of, ppp, protocol, raw,
    untagged,
};
use crate::wirebase::Octets;

/// Why octets are refused as a frame of their link: the check that fails first.
#[derive(Debug, PartialEq, Eq, Clone, Copy)]
#[non_exhaustive]
pub enum Refusal {
    /// Fewer bytes than the header of the link has; of NFLOG, than its attributes have up to the end of the packet.
    Short,
    /// The octets end within a VLAN tag of four bytes.
    Tag,
    /// The octets end within a protocol of PPP, which has one byte where that is odd, and else two.
    Protocol,
    /// The PPPoE version is not 1 (RFC 2516 section 4); this is its number.
    SessionVersion(u8),
    /// The PPPoE type is not 1; this is its number.
    SessionType(u8),
    /// The PPPoE code is not 0, the code of session data; this is its number.
    SessionCode(u8),
    /// The address of frame relay has one byte, or more than four (RFC 2427 section 3).
    FrameRelayAddress,
    /// The control byte of frame relay is not 3, that of unnumbered information (RFC 2427 section 3); this is its
    /// number.
    FrameRelayControl(u8),
    /// The NFLOG version is not 0; this is its number.
    NflogVersion(u8),
    /// An NFLOG attribute has a length below 4, the bytes of its own header; this is the length.
    NflogLen(u8),
}

impl Link {
    /// The frame in these octets, as [`Link::frame`] reads it, or else why they are refused, as [`Link::refusal`] tells
    /// it: the check that fails first.
    #[inline]
    pub fn frame_or_refusal(self, octets: &[u8]) -> core::result::Result<Frame<'_>, Refusal> {
        match self.frame(octets) {
            Ok(frame) => Ok(frame),
            Err(_) => Err(self.refusal(octets).unwrap()),
        }
    }

    /// Why [`Link::frame`] refuses these octets, by the check that fails first; None where it reads them.
    pub fn refusal(self, octets: &[u8]) -> Option<Refusal> {
        match self {
            Link::Null => match family(octets) {
                Ok(_) => None,
                Err(_) => Some(Refusal::Short),
            },
            Link::Ethernet => why_not_typed(octets, 12, 14),
            Link::Ppp => match ppp(octets) {
                Ok(_) => None,
                Err(_) => Some(Refusal::Protocol),
            },
            Link::PppEther => why_no_session(octets),
            Link::Raw => match raw(octets) {
                Ok(_) => None,
                Err(_) => Some(Refusal::Short),
            },
            Link::LinuxSll => why_not_typed(octets, 14, 16),
            Link::LinuxSll2 => why_not_typed(octets, 0, 20),
            Link::CHdlc => why_not_typed(octets, 2, 4),
            Link::FrameRelay => match frame_relay::read(octets) {
                Ok(_) => None,
                Err(refusal) => Some(refusal),
            },
            Link::Ipnet => match ipnet(octets) {
                Ok(_) => None,
                Err(_) => Some(Refusal::Short),
            },
            Link::Nflog => match nflog::read(octets) {
                Ok(_) => None,
                Err(refusal) => Some(refusal),
            },
            Link::Ipoib => why_not_typed(octets, 40, 44),
        }
    }
}

// Why a frame whose EtherType is at `place` and whose payload begins at `start` is refused; None where it is read.
pub(super) fn why_not_typed(octets: &[u8], place: usize, start: usize) -> Option<Refusal> {
    if octets.len() < start {
        return Some(Refusal::Short);
    }
    let Ok(typed) = untagged(octets.u16_at(place..place + 2), behind(octets, start)) else {
        return Some(Refusal::Tag);
    };
    match payload_of(typed) {
        Ok(_) => None,
        Err(_) => Some(Refusal::Protocol),
    }
}

// Why octets are no data of a PPPoE session; None where they are.
fn why_no_session(octets: &[u8]) -> Option<Refusal> {
    if octets.len() < 6 {
        return Some(Refusal::Short);
    }
    let word = octets.u16_at(0..2);
    if word / 0x1000 != 1 {
        return Some(Refusal::SessionVersion((word / 0x1000) as u8));
    }
    if word / 0x100 % 0x10 != 1 {
        return Some(Refusal::SessionType((word / 0x100 % 0x10) as u8));
    }
    if word % 0x100 != 0 {
        return Some(Refusal::SessionCode((word % 0x100) as u8));
    }
    match protocol(behind(octets, 6), &[]) {
        Ok(_) => None,
        Err(_) => Some(Refusal::Protocol),
    }
}
