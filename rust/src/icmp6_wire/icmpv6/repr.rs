// Made from crates/icmp6_wire/src/icmpv6/repr.rt by rust/erase.
//! Messages as values (RFC 4443).

use super::packet::{Packet, fill};
use super::quote::{error_len, write_error};
use super::reading::{read_echo_reply, read_echo_request, read_error};
use super::tables::{DstUnreachable, Message, ParamProblem, TimeExceeded};
use super::{ECHO_REPLY, ECHO_REQUEST, field};
use crate::icmp6_wire::mld::{read_query, read_report};
use crate::icmp6_wire::ndisc::{
    OptionsSeen, neighbor_advert, neighbor_solicit, redirect, router_advert, router_solicit,
};
use crate::icmp6_wire::{mld, ndisc};
use crate::wirebase::{
    ByteWriter, ChecksumCapabilities, Error, Ipv6Address, Ipv6Repr, OctetsMut, Result, icmp,
};

/// A message (RFC 4443).
///
/// ```
/// use control_wire::icmpv6::{Packet, Repr};
/// use control_wire::ndisc::{self, NeighborFlags};
/// use control_wire::{ChecksumCapabilities, Ipv6Address};
///
/// /// What a neighbor advertisement says of its sender.
/// fn neighbor(src: &Ipv6Address, dst: &Ipv6Address, octets: &[u8]) -> Option<(Ipv6Address, bool)> {
///     let checksums = ChecksumCapabilities::default();
///     let packet = Packet::new_checked(octets).ok()?;
///     match Repr::parse(src, dst, &packet, &checksums).ok()? {
///         Repr::Ndisc(ndisc::Repr::NeighborAdvert { flags, target_addr, .. }) => {
///             Some((target_addr, flags.contains(NeighborFlags::ROUTER)))
///         }
///         _ => None,
///     }
/// }
/// # assert_eq!(neighbor(&Ipv6Address::UNSPECIFIED, &Ipv6Address::UNSPECIFIED, &[]), None);
/// ```
#[derive(Debug, PartialEq, Eq, Clone, Copy)]
#[non_exhaustive]
pub enum Repr<'a> {
    /// An error: the destination of the quoted packet is unreachable.
    DstUnreachable {
        /// Why, by the code.
        reason: DstUnreachable,
        /// The header of the packet that the error is about.
        header: Ipv6Repr,
        /// What follows the quoted header.
        data: &'a [u8],
    },
    /// An error: the quoted packet is longer than the next link can carry.
    PktTooBig {
        /// The bytes of the largest packet that the link can carry.
        mtu: u32,
        /// The header of the packet that the error is about.
        header: Ipv6Repr,
        /// What follows the quoted header.
        data: &'a [u8],
    },
    /// An error: a time of the quoted packet was exceeded.
    TimeExceeded {
        /// Why, by the code.
        reason: TimeExceeded,
        /// The header of the packet that the error is about.
        header: Ipv6Repr,
        /// What follows the quoted header.
        data: &'a [u8],
    },
    /// An error: a field of the quoted packet makes no sense.
    ParamProblem {
        /// Why, by the code.
        reason: ParamProblem,
        /// The place of the field, counted from the quoted packet's first byte.
        pointer: u32,
        /// The header of the packet that the error is about.
        header: Ipv6Repr,
        /// What follows the quoted header.
        data: &'a [u8],
    },
    /// An echo request.
    EchoRequest {
        /// The identifier, which the reply has too.
        ident: u16,
        /// The sequence number, which the reply has too.
        seq_no: u16,
        /// The data, which the reply has too.
        data: &'a [u8],
    },
    /// An echo reply.
    EchoReply {
        /// The identifier of the request.
        ident: u16,
        /// The sequence number of the request.
        seq_no: u16,
        /// The data of the request.
        data: &'a [u8],
    },
    /// A message of neighbor discovery (RFC 4861).
    Ndisc(ndisc::Repr<'a>),
    /// A message of multicast listener discovery (RFC 3810).
    Mld(mld::Repr<'a>),
}

impl<'a> Repr<'a> {
    /// The message in the octets, from `src_addr` to `dst_addr`. Refused where they don't begin with the header of a
    /// type that is read here, where their checksum is to be verified and isn't good, and where they are none of these
    /// messages. The code is 0 in all but three errors: an unreachable destination, an exceeded time and a parameter
    /// problem. An error quotes a whole header, whose version and payload length are not checked, and its data is all
    /// that follows that header. A message of neighbor discovery is read by `ndisc::Repr::parse`, a query and a report
    /// by `mld::Repr::parse`.
    #[inline]
    pub fn parse<B: AsRef<[u8]> + ?Sized>(
        src_addr: &Ipv6Address,
        dst_addr: &Ipv6Address,
        packet: &Packet<&'a B>,
        checksum_caps: &ChecksumCapabilities,
    ) -> Result<Repr<'a>> {
        // Checked first, so that too few octets cost next to nothing.
        if packet.buffer.as_ref().len() < field::HEADER_END {
            return Err(Error);
        }
        // Echoes are read apart, since they are the most frequent: the function for the others clears room for their
        // values.
        let kind = packet.buffer.as_ref()[field::TYPE.start];
        if kind == ECHO_REQUEST || kind == ECHO_REPLY {
            return Repr::read_echo(src_addr, dst_addr, packet, checksum_caps);
        }
        Repr::read(src_addr, dst_addr, packet.buffer.as_ref(), checksum_caps)
    }

    // The echo in octets of either type.
    #[inline]
    fn read_echo<B: AsRef<[u8]> + ?Sized>(
        src_addr: &Ipv6Address,
        dst_addr: &Ipv6Address,
        packet: &Packet<&'a B>,
        checksum_caps: &ChecksumCapabilities,
    ) -> Result<Repr<'a>> {
        if packet.msg_code() != 0
            || checksum_caps.icmpv6.rx() && !packet.verify_checksum(src_addr, dst_addr)
        {
            return Err(Error);
        }
        if packet.buffer.as_ref()[field::TYPE.start] == ECHO_REQUEST {
            return Ok(read_echo_request(packet));
        }
        Ok(read_echo_reply(packet))
    }

    // The message in the octets, of a type other than an echo. It takes the octets and not the view, whose type is
    // generic in Rust, so that it is not compiled into `parse`, which is inlined where echoes are read.
    fn read(
        src_addr: &Ipv6Address,
        dst_addr: &Ipv6Address,
        octets: &'a [u8],
        checksum_caps: &ChecksumCapabilities,
    ) -> Result<Repr<'a>> {
        let packet = &Packet::new_unchecked(octets);
        let kind = packet.checked_type()?;
        if checksum_caps.icmpv6.rx() && !packet.verify_checksum(src_addr, dst_addr) {
            return Err(Error);
        }
        if kind.is_error() {
            return read_error(packet, kind);
        }
        if packet.msg_code() != 0 {
            return Err(Error);
        }
        // Each arm returns the result of a call that has one way out, so that the value is written once, in the
        // caller's slot. The parsers of both protocols repeat these arms, since a value that one function made for both
        // would be copied.
        if !kind.is_ndisc() {
            match kind {
                Message::MldQuery => return Ok(Repr::Mld(read_query(packet))),
                Message::MldReport => return Ok(Repr::Mld(read_report(packet))),
                _ => return Err(Error),
            }
        }
        let mut found = OptionsSeen::nothing();
        found.add_all(packet.behind(kind))?;
        match kind {
            Message::RouterSolicit => return Ok(Repr::Ndisc(router_solicit(packet, &found))),
            Message::RouterAdvert => return Ok(Repr::Ndisc(router_advert(packet, &found))),
            Message::NeighborSolicit => return Ok(Repr::Ndisc(neighbor_solicit(packet, &found))),
            Message::NeighborAdvert => return Ok(Repr::Ndisc(neighbor_advert(packet, &found))),
            Message::Redirect => return Ok(Repr::Ndisc(redirect(packet, &found))),
            _ => return Err(Error),
        }
    }

    /// The bytes that the message takes, at most 1,240 of an error; of a report given by its records the 8 bytes before
    /// them. Requires that their number fits a `usize`.
    ///
    /// # Panics
    ///
    /// May panic where what is asked for above does not hold.
    pub fn buffer_len(&self) -> usize {
        match self {
            Repr::Mld(message) => message.buffer_len(),
            _ => self.packet_len(),
        }
    }

    /// The bytes of the packet of the message, at most 1,240 of an error. Requires that their number fits a `usize`.
    ///
    /// # Panics
    ///
    /// May panic where what is asked for above does not hold.
    pub fn packet_len(&self) -> usize {
        match self {
            Repr::DstUnreachable { header, data, .. }
            | Repr::PktTooBig { header, data, .. }
            | Repr::TimeExceeded { header, data, .. }
            | Repr::ParamProblem { header, data, .. } => error_len(header, data),
            Repr::EchoRequest { data, .. } | Repr::EchoReply { data, .. } => {
                field::HEADER_END + data.len()
            }
            Repr::Ndisc(message) => message.buffer_len(),
            Repr::Mld(message) => message.packet_len(),
        }
    }

    /// Writes the message over the front of the octets, as far as they go, and then, where the capabilities have it
    /// computed, the checksum of all of them as a message from `src_addr` to `dst_addr`. Give exactly `packet_len()`
    /// bytes: in a longer buffer the checksum covers what follows the message, in a shorter one an echo is cut. An echo
    /// requires at least 8 bytes; an error requires at least `packet_len()`, and that the quoted `payload_len` is at
    /// most 65,535; a message of multicast listener discovery requires what `mld::Repr::emit` does, and one of neighbor
    /// discovery what `ndisc::Repr::emit` does.
    ///
    /// # Panics
    ///
    /// May panic where what is asked for above does not hold.
    pub fn emit<T: OctetsMut>(
        &self,
        src_addr: &Ipv6Address,
        dst_addr: &Ipv6Address,
        packet: &mut Packet<T>,
        checksum_caps: &ChecksumCapabilities,
    ) {
        self.emit_into(
            src_addr,
            dst_addr,
            packet.buffer.octets_mut(),
            checksum_caps,
        );
    }

    /// Like `emit`, but writes into a slice. Give exactly `packet_len()` bytes: in a longer one the checksum covers
    /// what follows the message, in a shorter one an echo is cut.
    ///
    /// # Panics
    ///
    /// May panic where what is asked for above does not hold.
    pub fn emit_into(
        &self,
        src_addr: &Ipv6Address,
        dst_addr: &Ipv6Address,
        octets: &mut [u8],
        checksum_caps: &ChecksumCapabilities,
    ) {
        self.write(octets);
        seal(octets, src_addr, dst_addr, checksum_caps);
    }

    // Writes the message, with the checksum zero.
    fn write(&self, octets: &mut [u8]) {
        match self {
            Repr::DstUnreachable {
                reason,
                header,
                data,
            } => {
                let code = (*reason).into();
                write_error(octets, Message::DstUnreachable, code, 0, header, data);
            }
            Repr::PktTooBig { mtu, header, data } => {
                write_error(octets, Message::PktTooBig, 0, *mtu, header, data);
            }
            Repr::TimeExceeded {
                reason,
                header,
                data,
            } => {
                let code = (*reason).into();
                write_error(octets, Message::TimeExceeded, code, 0, header, data);
            }
            Repr::ParamProblem {
                reason,
                pointer,
                header,
                data,
            } => {
                let code = (*reason).into();
                write_error(octets, Message::ParamProblem, code, *pointer, header, data);
            }
            Repr::EchoRequest {
                ident,
                seq_no,
                data,
            } => write_echo(octets, Message::EchoRequest, *ident, *seq_no, data),
            Repr::EchoReply {
                ident,
                seq_no,
                data,
            } => write_echo(octets, Message::EchoReply, *ident, *seq_no, data),
            Repr::Ndisc(message) => message.emit_into(octets),
            Repr::Mld(message) => message.emit_into(octets),
        }
    }
}

// Writes an echo of this type over the front of the octets.
fn write_echo(octets: &mut [u8], kind: Message, ident: u16, seq_no: u16, data: &[u8]) {
    let mut w = ByteWriter::new(octets);
    icmp::put_echo(&mut w, kind.into(), ident, seq_no, data);
}

// Writes the checksum, where it is computed.
fn seal(
    octets: &mut [u8],
    src_addr: &Ipv6Address,
    dst_addr: &Ipv6Address,
    checksum_caps: &ChecksumCapabilities,
) {
    if checksum_caps.icmpv6.tx() {
        fill(octets, src_addr, dst_addr);
    }
}
