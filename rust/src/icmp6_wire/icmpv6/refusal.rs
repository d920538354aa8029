// Made from crates/icmp6_wire/src/icmpv6/refusal.rt by rust/erase.
//! Why octets are refused as a message: the first check that fails.

use super::field;
use super::packet::Packet;
use super::reading::{read_echo_reply, read_echo_request, read_error};
use super::repr::Repr;
use super::tables::Message;
use crate::icmp6_wire::mld::{read_query, read_report};
use crate::icmp6_wire::ndisc;
use crate::wirebase::{ChecksumCapabilities, IPV6_HEADER_LEN, Ipv6Address};
use core::fmt;

/// Why [`Repr::parse`] refuses octets as a message: the first check that fails.
#[derive(Debug, PartialEq, Eq, Clone, Copy)]
#[non_exhaustive]
pub enum Refusal {
    /// Fewer than 8 bytes.
    Short,
    /// The type, by its number, is none of those that are read: errors (1 to 4), echoes, messages of neighbor
    /// discovery, and of multicast listener discovery queries (130) and reports of version 2 (143). Version 1 (RFC
    /// 2710) has types 131, for a report, and 132, for a done message.
    UnknownType(u8),
    /// Fewer bytes than the header of the type has, such as 28 of a query of multicast listener discovery; one of
    /// version 1 has 24.
    Length,
    /// The checksum does not hold (RFC 4443 section 2.3).
    Checksum,
    /// An error quotes fewer bytes than an IPv6 header has, 40.
    Quote,
    /// The code, by its number, is not 0, in a message of a type that has no other code.
    Code(u8),
    /// What follows the header of a message of neighbor discovery is not whole options: one of the reasons about an
    /// option.
    Ndisc(ndisc::Refusal),
}

impl fmt::Display for Refusal {
    fn fmt(&self, f: &mut fmt::Formatter<'_>) -> fmt::Result {
        match self {
            Refusal::Short => f.write_str("fewer than 8 bytes"),
            Refusal::UnknownType(number) => write!(f, "type {number} is not read"),
            Refusal::Length => f.write_str("fewer bytes than the header of its type"),
            Refusal::Checksum => f.write_str("the checksum does not hold"),
            Refusal::Quote => f.write_str("an error that quotes fewer than 40 bytes"),
            Refusal::Code(number) => write!(f, "code {number} is not read"),
            Refusal::Ndisc(reason) => write!(f, "{reason}"),
        }
    }
}

impl<'a> Repr<'a> {
    /// The message in the octets, from `src_addr` to `dst_addr`, or why [`Repr::parse`] refuses them, by the first
    /// check that fails.
    ///
    /// ```
    /// use control_wire::icmpv6::{Packet, Refusal, Repr};
    /// use control_wire::{ChecksumCapabilities, Ipv6Address};
    ///
    /// // A report of version 1 of multicast listener discovery (RFC 2710).
    /// let mut octets = [0; 24];
    /// octets[0] = 131;
    /// let packet = Packet::new_unchecked(&octets[..]);
    /// let any = Ipv6Address::UNSPECIFIED;
    /// let read = Repr::parse_or_refusal(&any, &any, &packet, &ChecksumCapabilities::default());
    /// assert_eq!(read, Err(Refusal::UnknownType(131)));
    /// ```
    pub fn parse_or_refusal<B: AsRef<[u8]> + ?Sized>(
        src_addr: &Ipv6Address,
        dst_addr: &Ipv6Address,
        packet: &Packet<&'a B>,
        checksum_caps: &ChecksumCapabilities,
    ) -> Result<Repr<'a>, Refusal> {
        Repr::read_or_refusal(src_addr, dst_addr, packet, checksum_caps)
    }

    /// Why [`Repr::parse`] refuses these octets, by the first check that fails; None where it reads them.
    pub fn refusal<B: AsRef<[u8]> + ?Sized>(
        src_addr: &Ipv6Address,
        dst_addr: &Ipv6Address,
        packet: &Packet<&B>,
        checksum_caps: &ChecksumCapabilities,
    ) -> Option<Refusal> {
        match Repr::read_or_refusal(src_addr, dst_addr, packet, checksum_caps) {
            Ok(_) => None,
            Err(why) => Some(why),
        }
    }

    // The message in the octets, or the first check that fails. Apart from the reader of `parse`, which took 293
    // instructions in place of 257 for an error where its result had room for a reason.
    #[inline(always)]
    fn read_or_refusal<B: AsRef<[u8]> + ?Sized>(
        src_addr: &Ipv6Address,
        dst_addr: &Ipv6Address,
        packet: &Packet<&'a B>,
        checksum_caps: &ChecksumCapabilities,
    ) -> Result<Repr<'a>, Refusal> {
        let octets = packet.buffer.as_ref();
        if octets.len() < field::HEADER_END {
            return Err(Refusal::Short);
        }
        let kind = packet.msg_type();
        if let Message::RplControl | Message::Unknown(_) = kind {
            return Err(Refusal::UnknownType(octets[field::TYPE.start]));
        }
        if octets.len() < packet.header_len() {
            return Err(Refusal::Length);
        }
        if checksum_caps.icmpv6.rx() && !packet.verify_checksum(src_addr, dst_addr) {
            return Err(Refusal::Checksum);
        }
        if kind.is_error() {
            if octets.len() < field::HEADER_END + IPV6_HEADER_LEN {
                return Err(Refusal::Quote);
            }
            return match read_error(packet, kind) {
                Ok(repr) => Ok(repr),
                Err(_) => Err(Refusal::Code(packet.msg_code())),
            };
        }
        let code = packet.msg_code();
        if code != 0 {
            return Err(Refusal::Code(code));
        }
        if kind.is_ndisc() {
            return match ndisc::Repr::read(packet) {
                Ok(message) => Ok(Repr::Ndisc(message)),
                Err(reason) => Err(Refusal::Ndisc(reason)),
            };
        }
        match kind {
            Message::EchoRequest => Ok(read_echo_request(packet)),
            Message::EchoReply => Ok(read_echo_reply(packet)),
            Message::MldQuery => Ok(Repr::Mld(read_query(packet))),
            _ => Ok(Repr::Mld(read_report(packet))),
        }
    }
}
