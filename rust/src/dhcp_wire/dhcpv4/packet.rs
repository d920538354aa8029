// Made from crates/dhcp_wire/src/dhcpv4/packet.rt by rust/erase.
//! A view of the octets of a packet.

use super::options::{DhcpOptionWriter, OptionsIter};
use super::tables::{Flags, OpCode};
use crate::wirebase::{Error, EthernetAddress, Hardware, Ipv4Address, Octets, OctetsMut, Result};

// The fields of a packet (RFC 2131 section 2).
pub(super) mod field {
    use crate::wirebase::Field;

    pub const OP: Field = 0..1;

    pub const HTYPE: Field = 1..2;

    pub const HLEN: Field = 2..3;

    pub const HOPS: Field = 3..4;

    pub const XID: Field = 4..8;

    pub const SECS: Field = 8..10;

    pub const FLAGS: Field = 10..12;

    pub const CIADDR: Field = 12..16;

    pub const YIADDR: Field = 16..20;

    pub const SIADDR: Field = 20..24;

    pub const GIADDR: Field = 24..28;

    pub const CHADDR: Field = 28..34;

    pub const SNAME: Field = 34..108;

    pub const FILE: Field = 108..236;

    pub const SNAME_AND_FILE: Field = 34..236;

    pub const MAGIC_NUMBER: Field = 236..240;

    pub const OPTIONS: usize = 240;
}

/// A view of the octets of a packet.
#[derive(Debug, Clone, Copy)]
pub struct Packet<T: Octets> {
    pub(super) buffer: T,
}

/// Views are equal exactly when their octets are equal.
impl<T: Octets> PartialEq for Packet<T> {
    fn eq(&self, other: &Packet<T>) -> bool {
        self.buffer.octets() == other.buffer.octets()
    }
}

impl<T: Octets> Eq for Packet<T> {}

impl<T: Octets> Packet<T> {
    /// Makes a view of `buffer`; its length is not checked.
    pub const fn new_unchecked(buffer: T) -> Packet<T> {
        Packet { buffer }
    }

    /// Makes a view of `buffer`. Refused where it has fewer than 240 octets. On refusal the buffer is dropped: to keep
    /// a `&mut [u8]`, call `new_unchecked` and then `check_len`.
    pub fn new_checked(buffer: T) -> Result<Packet<T>> {
        let packet = Packet::new_unchecked(buffer);
        packet.check_len()?;
        Ok(packet)
    }

    /// Accepts 240 octets or more. Then each accessor may be called.
    pub fn check_len(&self) -> Result<()> {
        if self.buffer.octets().len() < field::OPTIONS {
            return Err(Error);
        }
        Ok(())
    }

    /// Returns the buffer of the view.
    pub fn into_inner(self) -> T {
        self.buffer
    }

    /// Whether the packet is a client's request or a server's reply. Requires at least 1 byte.
    ///
    /// # Panics
    ///
    /// May panic where what is asked for above does not hold.
    pub fn opcode(&self) -> OpCode {
        OpCode::from(self.buffer.u8_at(field::OP))
    }

    /// The kind of hardware of the client's network. Requires at least 2 bytes.
    ///
    /// # Panics
    ///
    /// May panic where what is asked for above does not hold.
    pub fn hardware_type(&self) -> Hardware {
        Hardware::from(self.buffer.u8_at(field::HTYPE) as u16)
    }

    /// The bytes of a hardware address. Requires at least 3 bytes.
    ///
    /// # Panics
    ///
    /// May panic where what is asked for above does not hold.
    pub fn hardware_len(&self) -> u8 {
        self.buffer.u8_at(field::HLEN)
    }

    /// The number that a client chose for this exchange. Requires at least 8 bytes.
    ///
    /// # Panics
    ///
    /// May panic where what is asked for above does not hold.
    pub fn transaction_id(&self) -> u32 {
        self.buffer.u32_at(field::XID)
    }

    /// The client's address on its network, of Ethernet. Requires at least 34 bytes.
    ///
    /// # Panics
    ///
    /// May panic where what is asked for above does not hold.
    pub fn client_hardware_address(&self) -> EthernetAddress {
        EthernetAddress::from_bytes(self.buffer.field(field::CHADDR))
    }

    /// How many relays the packet has passed. Requires at least 4 bytes.
    ///
    /// # Panics
    ///
    /// May panic where what is asked for above does not hold.
    pub fn hops(&self) -> u8 {
        self.buffer.u8_at(field::HOPS)
    }

    /// The seconds since the client began. Requires at least 10 bytes.
    ///
    /// # Panics
    ///
    /// May panic where what is asked for above does not hold.
    pub fn secs(&self) -> u16 {
        self.buffer.u16_at(field::SECS)
    }

    /// The number before the options; that of DHCP is 0x63825363 (RFC 2131 section 3). Requires at least 240 bytes.
    ///
    /// # Panics
    ///
    /// May panic where what is asked for above does not hold.
    pub fn magic_number(&self) -> u32 {
        self.buffer.u32_at(field::MAGIC_NUMBER)
    }

    /// The address that the client has, or 0.0.0.0. Requires at least 16 bytes.
    ///
    /// # Panics
    ///
    /// May panic where what is asked for above does not hold.
    pub fn client_ip(&self) -> Ipv4Address {
        ipv4_address(self.buffer.field(field::CIADDR))
    }

    /// The address that the client is given, or 0.0.0.0. Requires at least 20 bytes.
    ///
    /// # Panics
    ///
    /// May panic where what is asked for above does not hold.
    pub fn your_ip(&self) -> Ipv4Address {
        ipv4_address(self.buffer.field(field::YIADDR))
    }

    /// The server to start from, or 0.0.0.0. Requires at least 24 bytes.
    ///
    /// # Panics
    ///
    /// May panic where what is asked for above does not hold.
    pub fn server_ip(&self) -> Ipv4Address {
        ipv4_address(self.buffer.field(field::SIADDR))
    }

    /// The relay that the packet came by, or 0.0.0.0. Requires at least 28 bytes.
    ///
    /// # Panics
    ///
    /// May panic where what is asked for above does not hold.
    pub fn relay_agent_ip(&self) -> Ipv4Address {
        ipv4_address(self.buffer.field(field::GIADDR))
    }

    /// The flags that have a name; the other bits are ignored. Requires at least 12 bytes.
    ///
    /// # Panics
    ///
    /// May panic where what is asked for above does not hold.
    pub fn flags(&self) -> Flags {
        Flags::from_bits_truncate(self.buffer.u16_at(field::FLAGS))
    }
}

impl<T: Octets> Packet<T> {
    /// The options in turn. Requires at least 240 bytes.
    ///
    /// ```
    /// use control_wire::dhcpv4::Packet;
    ///
    /// let mut octets = vec![0; 240];
    /// octets.extend([53, 1, 2, 51, 4, 0, 0, 0x0e, 0x10, 255]);
    /// let packet = Packet::new_checked(octets)?;
    /// let mut options = packet.options();
    /// assert_eq!(options.next().unwrap().to_string(), "message-type=OFFER");
    /// assert_eq!(options.clone().next().unwrap().to_string(), "lease-time=3600");
    /// assert_eq!(options.count(), 1);
    /// # Ok::<(), control_wire::Error>(())
    /// ```
    ///
    /// # Panics
    ///
    /// May panic where what is asked for above does not hold.
    pub fn options(&self) -> OptionsIter<'_> {
        OptionsIter::new(&self.buffer.octets()[field::OPTIONS..])
    }
}

impl<'a, B: AsRef<[u8]> + ?Sized> Packet<&'a B> {
    /// The options in turn, for as long as the octets live, which may be longer than the view. Requires at least 240
    /// bytes.
    ///
    /// # Panics
    ///
    /// May panic where what is asked for above does not hold.
    pub fn into_options(self) -> OptionsIter<'a> {
        let octets: &'a [u8] = self.buffer.as_ref();
        OptionsIter::new(&octets[field::OPTIONS..])
    }
}

impl<T: OctetsMut> Packet<T> {
    /// Writes zeros for the names of a server and of a file to start from. Requires at least 236 bytes.
    ///
    /// # Panics
    ///
    /// May panic where what is asked for above does not hold.
    pub fn set_sname_and_boot_file_to_zero(&mut self) {
        self.buffer.field_mut(field::SNAME_AND_FILE).fill(0);
    }

    /// Writes whether the packet is a client's request or a server's reply. Requires at least 1 byte.
    ///
    /// # Panics
    ///
    /// May panic where what is asked for above does not hold.
    pub fn set_opcode(&mut self, value: OpCode) {
        self.buffer.set_u8(field::OP, value.into());
    }

    /// Writes the kind of hardware, whose number has to fit a byte. Requires at least 2 bytes.
    ///
    /// # Panics
    ///
    /// May panic where what is asked for above does not hold.
    pub fn set_hardware_type(&mut self, value: Hardware) {
        self.buffer.set_u8(field::HTYPE, u16::from(value) as u8);
    }

    /// Writes the bytes of a hardware address. Requires at least 3 bytes.
    ///
    /// # Panics
    ///
    /// May panic where what is asked for above does not hold.
    pub fn set_hardware_len(&mut self, value: u8) {
        self.buffer.set_u8(field::HLEN, value);
    }

    /// Writes the number that a client chose for this exchange. Requires at least 8 bytes.
    ///
    /// # Panics
    ///
    /// May panic where what is asked for above does not hold.
    pub fn set_transaction_id(&mut self, value: u32) {
        self.buffer.set_u32(field::XID, value);
    }

    /// Writes the client's address on its network. Requires at least 34 bytes.
    ///
    /// # Panics
    ///
    /// May panic where what is asked for above does not hold.
    pub fn set_client_hardware_address(&mut self, value: EthernetAddress) {
        self.buffer.set_bytes(field::CHADDR, value.as_bytes());
    }

    /// Writes how many relays the packet has passed. Requires at least 4 bytes.
    ///
    /// # Panics
    ///
    /// May panic where what is asked for above does not hold.
    pub fn set_hops(&mut self, value: u8) {
        self.buffer.set_u8(field::HOPS, value);
    }

    /// Writes the seconds since the client began. Requires at least 10 bytes.
    ///
    /// # Panics
    ///
    /// May panic where what is asked for above does not hold.
    pub fn set_secs(&mut self, value: u16) {
        self.buffer.set_u16(field::SECS, value);
    }

    /// Writes the number before the options. Requires at least 240 bytes.
    ///
    /// # Panics
    ///
    /// May panic where what is asked for above does not hold.
    pub fn set_magic_number(&mut self, value: u32) {
        self.buffer.set_u32(field::MAGIC_NUMBER, value);
    }

    /// Writes the address that the client has. Requires at least 16 bytes.
    ///
    /// # Panics
    ///
    /// May panic where what is asked for above does not hold.
    pub fn set_client_ip(&mut self, value: Ipv4Address) {
        self.buffer.set_bytes(field::CIADDR, &value.octets());
    }

    /// Writes the address that the client is given. Requires at least 20 bytes.
    ///
    /// # Panics
    ///
    /// May panic where what is asked for above does not hold.
    pub fn set_your_ip(&mut self, value: Ipv4Address) {
        self.buffer.set_bytes(field::YIADDR, &value.octets());
    }

    /// Writes the server to start from. Requires at least 24 bytes.
    ///
    /// # Panics
    ///
    /// May panic where what is asked for above does not hold.
    pub fn set_server_ip(&mut self, value: Ipv4Address) {
        self.buffer.set_bytes(field::SIADDR, &value.octets());
    }

    /// Writes the relay that the packet came by. Requires at least 28 bytes.
    ///
    /// # Panics
    ///
    /// May panic where what is asked for above does not hold.
    pub fn set_relay_agent_ip(&mut self, value: Ipv4Address) {
        self.buffer.set_bytes(field::GIADDR, &value.octets());
    }

    /// Writes the flags, with every bit of the value. Requires at least 12 bytes.
    ///
    /// # Panics
    ///
    /// May panic where what is asked for above does not hold.
    pub fn set_flags(&mut self, value: Flags) {
        self.buffer.set_u16(field::FLAGS, value.bits());
    }

    /// A writer over the options: all octets from 240 on, which are free. The view then holds what is written there.
    /// Requires at least 240 bytes.
    ///
    /// # Panics
    ///
    /// May panic where what is asked for above does not hold.
    pub fn options_mut(&mut self) -> DhcpOptionWriter<'_> {
        let len = self.buffer.octets().len();
        DhcpOptionWriter::new(self.buffer.range_mut(field::OPTIONS, len))
    }
}

// The address of four octets.
#[inline]
fn ipv4_address(octets: &[u8]) -> Ipv4Address {
    Ipv4Address::from_octets(octets.try_into().unwrap())
}
