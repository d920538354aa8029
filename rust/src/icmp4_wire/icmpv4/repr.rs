// Made from crates/icmp4_wire/src/icmpv4/repr.rt by rust/erase.
//! Messages as values (RFC 792).

use super::field;
use super::packet::Packet;
use super::tables::{DstUnreachable, Message, TimeExceeded};
use crate::wirebase::{
    ByteWriter, ChecksumCapabilities, Error, Ipv4Packet, Ipv4Repr, OctetsMut, Result, checksum,
    icmp,
};
use core::fmt;

// The bytes of a quoted header without options.
pub(super) const QUOTED_HEADER_LEN: usize = 20;

// The least number of bytes that an error quotes after the header.
const MIN_QUOTED_DATA: usize = 8;

/// A message (RFC 792).
///
/// ```
/// use control_wire::ChecksumCapabilities;
/// use control_wire::icmpv4::{Packet, Repr};
///
/// let checksums = ChecksumCapabilities::default();
/// let message = Repr::EchoRequest { ident: 1, seq_no: 2, data: b"ping" };
/// let mut octets = [0; 64];
/// let octets = &mut octets[..message.buffer_len()];
/// message.emit_into(octets, &checksums);
/// assert_eq!(*octets, [8, 0, 0x19, 0x2c, 0, 1, 0, 2, b'p', b'i', b'n', b'g']);
/// assert_eq!(Repr::parse(&Packet::new_unchecked(&*octets), &checksums), Ok(message));
/// ```
#[derive(Debug, PartialEq, Eq, Clone, Copy)]
#[non_exhaustive]
pub enum Repr<'a> {
    /// An echo request.
    EchoRequest {
        /// The identifier, which the reply has too.
        ident: u16,
        /// The sequence number, which the reply has too.
        seq_no: u16,
        /// The data, which the reply has too.
        data: &'a [u8],
    },
    /// An echo reply.
    EchoReply {
        /// The identifier of the request.
        ident: u16,
        /// The sequence number of the request.
        seq_no: u16,
        /// The data of the request.
        data: &'a [u8],
    },
    /// An error: the destination of the quoted packet is unreachable.
    DstUnreachable {
        /// Why, by the code.
        reason: DstUnreachable,
        /// The header of the packet that the error is about.
        header: Ipv4Repr,
        /// What follows the quoted header.
        data: &'a [u8],
    },
    /// An error: a time of the quoted packet was exceeded.
    TimeExceeded {
        /// Why, by the code.
        reason: TimeExceeded,
        /// The header of the packet that the error is about.
        header: Ipv4Repr,
        /// What follows the quoted header.
        data: &'a [u8],
    },
}

impl<'a> Repr<'a> {
    /// The message in the octets. Refused where they are fewer than 8, where their checksum is to be verified and isn't
    /// good, and where they are none of these messages: an echo has code 0, and an error quotes a packet that is whole
    /// by its own lengths, with 8 bytes or more after its header. The data is all that follows that header, and
    /// `payload_len` is its length.
    // Always inlined, so that a caller matches on the fields where they were read: a returned value is written and
    // copied. A responder that drops errors then has no code that reads them.
    #[inline(always)]
    pub fn parse<B: AsRef<[u8]> + ?Sized>(
        packet: &Packet<&'a B>,
        checksum_caps: &ChecksumCapabilities,
    ) -> Result<Repr<'a>> {
        packet.check_len()?;
        if checksum_caps.icmpv4.rx() && !packet.verify_checksum() {
            return Err(Error);
        }
        match (packet.msg_type(), packet.msg_code()) {
            (Message::EchoRequest, 0) => Ok(Repr::EchoRequest {
                ident: packet.echo_ident(),
                seq_no: packet.echo_seq_no(),
                data: packet.data(),
            }),
            (Message::EchoReply, 0) => Ok(Repr::EchoReply {
                ident: packet.echo_ident(),
                seq_no: packet.echo_seq_no(),
                data: packet.data(),
            }),
            (Message::DstUnreachable | Message::TimeExceeded, _) => Repr::read_error(packet),
            _ => Err(Error),
        }
    }

    // The error in octets of such a type, whatever their checksum.
    fn read_error<B: AsRef<[u8]> + ?Sized>(packet: &Packet<&'a B>) -> Result<Repr<'a>> {
        let (header, data) = read_quote(packet.data())?;
        let code = packet.msg_code();
        match packet.msg_type() {
            Message::DstUnreachable => Ok(Repr::DstUnreachable {
                reason: code.into(),
                header,
                data,
            }),
            _ => Ok(Repr::TimeExceeded {
                reason: code.into(),
                header,
                data,
            }),
        }
    }

    /// The bytes that the message takes. Requires that their number fits a `usize`.
    ///
    /// # Panics
    ///
    /// May panic where what is asked for above does not hold.
    pub const fn buffer_len(&self) -> usize {
        match self {
            Repr::EchoRequest { data, .. } => field::HEADER_END + data.len(),
            Repr::EchoReply { data, .. } => field::HEADER_END + data.len(),
            Repr::DstUnreachable { data, .. } => field::HEADER_END + QUOTED_HEADER_LEN + data.len(),
            Repr::TimeExceeded { data, .. } => field::HEADER_END + QUOTED_HEADER_LEN + data.len(),
        }
    }

    /// Writes the message over the front of the octets, as far as they go, and then, where the capabilities have it
    /// computed, the checksum of all of them. Give exactly `buffer_len()` bytes: in a longer buffer the checksum covers
    /// what follows the message, in a shorter one an echo is cut. An echo requires at least 8 bytes; an error requires
    /// exactly `buffer_len()`, and that the quoted `payload_len` is at most 65,515.
    ///
    /// # Panics
    ///
    /// May panic where what is asked for above does not hold.
    pub fn emit<T: OctetsMut>(&self, packet: &mut Packet<T>, checksum_caps: &ChecksumCapabilities) {
        self.emit_into(packet.buffer.octets_mut(), checksum_caps);
    }

    /// Like `emit`, but writes into a slice. Give exactly `buffer_len()` bytes: in a longer one the checksum covers
    /// what follows the message, in a shorter one an echo is cut.
    ///
    /// # Panics
    ///
    /// May panic where what is asked for above does not hold.
    pub fn emit_into(&self, octets: &mut [u8], checksum_caps: &ChecksumCapabilities) {
        self.write(octets, checksum_caps);
        seal(octets, checksum_caps);
    }

    // Writes the message, with the checksum zero.
    fn write(&self, octets: &mut [u8], checksum_caps: &ChecksumCapabilities) {
        let mut w = ByteWriter::new(octets);
        self.put(&mut w, checksum_caps);
    }

    // Writes the message with this writer, with the checksum zero.
    fn put(&self, w: &mut ByteWriter<'_>, checksum_caps: &ChecksumCapabilities) {
        match *self {
            Repr::EchoRequest {
                ident,
                seq_no,
                data,
            } => icmp::put_echo(w, Message::EchoRequest.into(), ident, seq_no, data),
            Repr::EchoReply {
                ident,
                seq_no,
                data,
            } => icmp::put_echo(w, Message::EchoReply.into(), ident, seq_no, data),
            Repr::DstUnreachable {
                reason,
                header,
                data,
            } => {
                let code = reason.into();
                put_error(
                    w,
                    Message::DstUnreachable,
                    code,
                    &header,
                    data,
                    checksum_caps,
                );
            }
            Repr::TimeExceeded {
                reason,
                header,
                data,
            } => {
                let code = reason.into();
                put_error(w, Message::TimeExceeded, code, &header, data, checksum_caps);
            }
        }
    }
}

/// Prints the message: an echo by its numbers and the length of its data, an error by its reason.
impl fmt::Display for Repr<'_> {
    fn fmt(&self, f: &mut fmt::Formatter<'_>) -> fmt::Result {
        match self {
            Repr::EchoRequest {
                ident,
                seq_no,
                data,
            } => {
                let len = data.len();
                write!(f, "ICMPv4 echo request id={ident} seq={seq_no} len={len}")
            }
            Repr::EchoReply {
                ident,
                seq_no,
                data,
            } => {
                let len = data.len();
                write!(f, "ICMPv4 echo reply id={ident} seq={seq_no} len={len}")
            }
            Repr::DstUnreachable { reason, .. } => {
                write!(f, "ICMPv4 destination unreachable ({reason})")
            }
            Repr::TimeExceeded { reason, .. } => {
                write!(f, "ICMPv4 time exceeded ({reason})")
            }
        }
    }
}

// The header that an error quotes, and all that follows it (RFC 792).
fn read_quote(octets: &[u8]) -> Result<(Ipv4Repr, &[u8])> {
    let packet = Ipv4Packet::new_checked(octets)?;
    let header_len = packet.header_len() as usize;
    if octets.len() < header_len + MIN_QUOTED_DATA {
        return Err(Error);
    }
    let data = &octets[header_len..];
    let header = Ipv4Repr {
        src_addr: packet.src_addr(),
        dst_addr: packet.dst_addr(),
        next_header: packet.next_header(),
        payload_len: data.len(),
        hop_limit: packet.hop_limit(),
    };
    Ok((header, data))
}

// Writes the checksum, where it is computed.
fn seal(octets: &mut [u8], checksum_caps: &ChecksumCapabilities) {
    if checksum_caps.icmpv4.tx() {
        checksum::fill(octets, field::CHECKSUM, 0);
    }
}

// Writes an error of this type.
fn put_error(
    w: &mut ByteWriter<'_>,
    kind: Message,
    code: u8,
    quoted: &Ipv4Repr,
    data: &[u8],
    checksum_caps: &ChecksumCapabilities,
) {
    icmp::put_header(w, kind.into(), code, [0; 4]);
    quoted.emit_into(w.part(quoted.buffer_len()), checksum_caps);
    w.put_bytes(data);
}
