// Made from crates/icmp6_wire/src/icmpv6/packet.rt by rust/erase.
//! The view of a message (RFC 4443 section 2.1).

use super::field;
use super::tables::Message;
use crate::wirebase::{Error, IpProtocol, Ipv6Address, Octets, OctetsMut, Result, checksum};

/// A view of the octets of a message.
#[derive(Debug, Clone)]
pub struct Packet<T: Octets> {
    pub(crate) buffer: T,
}

impl<T: Octets> Packet<T> {
    /// Makes a view of `buffer`; its length is not checked.
    pub const fn new_unchecked(buffer: T) -> Packet<T> {
        Packet { buffer }
    }

    /// Makes a view of `buffer`. Refused where it doesn't begin with a header of a type that is read here. On refusal
    /// the buffer is dropped: to keep a `&mut [u8]`, call `new_unchecked` and then `check_len`.
    pub fn new_checked(buffer: T) -> Result<Packet<T>> {
        let packet = Packet::new_unchecked(buffer);
        packet.check_len()?;
        Ok(packet)
    }

    /// Accepts octets that begin with a header of a type that is read here: every named type but that of RPL. Then each
    /// accessor of the type may be called.
    pub fn check_len(&self) -> Result<()> {
        let _kind = self.checked_type()?;
        Ok(())
    }

    // The type, looked up once. Refused where the octets don't begin with a header of a type that is read here.
    pub(crate) fn checked_type(&self) -> Result<Message> {
        let len = self.buffer.octets().len();
        if len < field::HEADER_END {
            return Err(Error);
        }
        let kind = self.msg_type();
        // Before the check of the length: after it, the compiler computes the length of a query before it looks up the
        // type, for messages of all types.
        if let Message::RplControl | Message::Unknown(_) = kind {
            return Err(Error);
        }
        if len < header_len_of(kind) {
            return Err(Error);
        }
        Ok(kind)
    }

    /// Returns the buffer of the view.
    pub fn into_inner(self) -> T {
        self.buffer
    }

    /// All the octets.
    pub fn as_ref(&self) -> &[u8] {
        self.buffer.octets()
    }

    /// The type. Requires at least 1 byte.
    ///
    /// # Panics
    ///
    /// May panic where what is asked for above does not hold.
    #[inline]
    pub fn msg_type(&self) -> Message {
        Message::from(self.buffer.u8_at(field::TYPE))
    }

    /// The code. Requires at least 2 bytes.
    ///
    /// # Panics
    ///
    /// May panic where what is asked for above does not hold.
    pub fn msg_code(&self) -> u8 {
        self.buffer.u8_at(field::CODE)
    }

    /// The checksum that the message carries. Requires at least 4 bytes.
    ///
    /// # Panics
    ///
    /// May panic where what is asked for above does not hold.
    pub fn checksum(&self) -> u16 {
        self.buffer.u16_at(field::CHECKSUM)
    }

    /// The identifier of an echo. Requires at least 6 bytes.
    ///
    /// # Panics
    ///
    /// May panic where what is asked for above does not hold.
    pub fn echo_ident(&self) -> u16 {
        self.buffer.u16_at(field::ECHO_IDENT)
    }

    /// The sequence number of an echo. Requires at least 8 bytes.
    ///
    /// # Panics
    ///
    /// May panic where what is asked for above does not hold.
    pub fn echo_seq_no(&self) -> u16 {
        self.buffer.u16_at(field::ECHO_SEQNO)
    }

    /// The bytes of the largest packet that the next link can carry, of a packet that is too big (RFC 4443 section
    /// 3.2). Requires at least 8 bytes.
    ///
    /// # Panics
    ///
    /// May panic where what is asked for above does not hold.
    pub fn pkt_too_big_mtu(&self) -> u32 {
        self.buffer.u32_at(field::MTU)
    }

    /// The place of a parameter problem in the quoted packet, counted from its first byte (RFC 4443 section 3.4).
    /// Requires at least 8 bytes.
    ///
    /// # Panics
    ///
    /// May panic where what is asked for above does not hold.
    pub fn param_problem_ptr(&self) -> u32 {
        self.buffer.u32_at(field::POINTER)
    }

    /// The bytes of the header, by the type; 4 of a type that is not read here. Requires at least 1 byte.
    ///
    /// # Panics
    ///
    /// May panic where what is asked for above does not hold.
    pub fn header_len(&self) -> usize {
        header_len_of(self.msg_type())
    }

    /// Whether all the octets together carry the checksum of a message from `src_addr` to `dst_addr` (RFC 4443 section
    /// 2.3).
    pub fn verify_checksum(&self, src_addr: &Ipv6Address, dst_addr: &Ipv6Address) -> bool {
        let octets = self.buffer.octets();
        checksum::is_good(octets, sum_before(octets, src_addr, dst_addr))
    }
}

impl<'a, B: AsRef<[u8]> + ?Sized> Packet<&'a B> {
    /// What follows the header, for as long as the octets live. Requires the header of the type.
    ///
    /// # Panics
    ///
    /// May panic where what is asked for above does not hold.
    pub fn payload(&self) -> &'a [u8] {
        self.behind(self.msg_type())
    }

    // `payload` where the type is known.
    pub(crate) fn behind(&self, kind: Message) -> &'a [u8] {
        &self.buffer.as_ref()[header_len_of(kind)..]
    }
}

impl<T: OctetsMut> Packet<T> {
    /// Writes the type. Requires at least 1 byte.
    ///
    /// # Panics
    ///
    /// May panic where what is asked for above does not hold.
    pub fn set_msg_type(&mut self, value: Message) {
        self.buffer.set_u8(field::TYPE, value.into());
    }

    /// Writes the code. Requires at least 2 bytes.
    ///
    /// # Panics
    ///
    /// May panic where what is asked for above does not hold.
    pub fn set_msg_code(&mut self, value: u8) {
        self.buffer.set_u8(field::CODE, value);
    }

    /// Writes zeros into the reserved fields of a message, by its type: of router and neighbor solicitations, neighbor
    /// advertisements and redirects the word after the checksum; of a query for listeners two bytes, and the upper half
    /// of the byte with the flag; of a report two bytes. Requires one of these types, and the bytes up to the end of
    /// these fields: 8, 25 of a query, 6 of a report.
    ///
    /// # Panics
    ///
    /// May panic where what is asked for above does not hold.
    pub fn clear_reserved(&mut self) {
        match self.msg_type() {
            Message::MldQuery => {
                let kept = self.buffer.u8_at(field::SQRV) % 16;
                self.buffer.set_u16(field::QUERY_RESERVED, 0);
                self.buffer.set_u8(field::SQRV, kept);
            }
            Message::MldReport => self.buffer.set_u16(field::REPORT_RESERVED, 0),
            _ => self.buffer.set_u32(field::UNUSED, 0),
        }
    }

    /// Writes the checksum. Requires at least 4 bytes.
    ///
    /// # Panics
    ///
    /// May panic where what is asked for above does not hold.
    pub fn set_checksum(&mut self, value: u16) {
        self.buffer.set_u16(field::CHECKSUM, value);
    }

    /// Writes the identifier of an echo. Requires at least 6 bytes.
    ///
    /// # Panics
    ///
    /// May panic where what is asked for above does not hold.
    pub fn set_echo_ident(&mut self, value: u16) {
        self.buffer.set_u16(field::ECHO_IDENT, value);
    }

    /// Writes the sequence number of an echo. Requires at least 8 bytes.
    ///
    /// # Panics
    ///
    /// May panic where what is asked for above does not hold.
    pub fn set_echo_seq_no(&mut self, value: u16) {
        self.buffer.set_u16(field::ECHO_SEQNO, value);
    }

    /// Writes the bytes of the largest packet that the next link can carry (RFC 4443 section 3.2). Requires at least 8
    /// bytes.
    ///
    /// # Panics
    ///
    /// May panic where what is asked for above does not hold.
    pub fn set_pkt_too_big_mtu(&mut self, value: u32) {
        self.buffer.set_u32(field::MTU, value);
    }

    /// Writes the place of a parameter problem in the quoted packet (RFC 4443 section 3.4). Requires at least 8 bytes.
    ///
    /// # Panics
    ///
    /// May panic where what is asked for above does not hold.
    pub fn set_param_problem_ptr(&mut self, value: u32) {
        self.buffer.set_u32(field::POINTER, value);
    }

    /// Writes the checksum of all the octets as a message from `src_addr` to `dst_addr`, in which its field counts as
    /// zero (RFC 4443 section 2.3). Requires at least 4 bytes.
    ///
    /// # Panics
    ///
    /// May panic where what is asked for above does not hold.
    pub fn fill_checksum(&mut self, src_addr: &Ipv6Address, dst_addr: &Ipv6Address) {
        fill(self.buffer.octets_mut(), src_addr, dst_addr);
    }

    /// Lends what follows the header for writing; the header is unchanged. Requires the header of the type.
    ///
    /// # Panics
    ///
    /// May panic where what is asked for above does not hold.
    pub fn payload_mut(&mut self) -> &mut [u8] {
        let start = self.header_len();
        let len = self.buffer.octets().len();
        self.buffer.range_mut(start, len)
    }
}

/// Views are equal where their octets are equal.
impl<T: Octets> PartialEq for Packet<T> {
    fn eq(&self, other: &Packet<T>) -> bool {
        self.buffer.octets() == other.buffer.octets()
    }
}

impl<T: Octets> Eq for Packet<T> {}

// The bytes of the header of a type; 4 of one that is not read here.
fn header_len_of(kind: Message) -> usize {
    match kind {
        Message::DstUnreachable | Message::TimeExceeded => field::UNUSED.end,
        Message::PktTooBig => field::MTU.end,
        Message::ParamProblem => field::POINTER.end,
        Message::EchoRequest | Message::EchoReply => field::ECHO_SEQNO.end,
        Message::MldQuery => field::QUERY_NUM_SRCS.end,
        Message::MldReport => field::NR_MCAST_RCRDS.end,
        Message::RouterSolicit => field::UNUSED.end,
        Message::RouterAdvert => field::RETRANS_TM.end,
        Message::NeighborSolicit | Message::NeighborAdvert => field::TARGET_ADDR.end,
        Message::Redirect => field::DEST_ADDR.end,
        Message::RplControl | Message::Unknown(_) => field::CHECKSUM.end,
    }
}

/// Writes the checksum of all the octets as a message from `src_addr` to `dst_addr`. Requires at least 4 bytes.
///
/// # Panics
///
/// May panic where what is asked for above does not hold.
pub(crate) fn fill(octets: &mut [u8], src_addr: &Ipv6Address, dst_addr: &Ipv6Address) {
    let sum = sum_before(octets, src_addr, dst_addr);
    checksum::fill(octets, field::CHECKSUM, sum);
}

// The sum of the pseudo header of these octets.
fn sum_before(octets: &[u8], src_addr: &Ipv6Address, dst_addr: &Ipv6Address) -> u16 {
    let len = octets.len() as u64 % (1 << 32);
    checksum::pseudo_header_v6(src_addr, dst_addr, IpProtocol::Icmpv6, len as u32)
}
