// Made from crates/header_wire/src/arp.rt by rust/erase.
//! Packets of ARP, by which hosts find the hardware address of a neighbor (RFC 826): those for Ethernet and IPv4.

mod display;
mod tables;

use crate::wirebase::{ByteWriter, EthernetAddress, Ipv4Address, Octets};
pub use tables::Operation;

mod field {
    use crate::wirebase::Field;

    pub const HARDWARE_TYPE: Field = 0..2;

    pub const PROTOCOL_TYPE: Field = 2..4;

    pub const HARDWARE_LEN: usize = 4;

    pub const PROTOCOL_LEN: usize = 5;

    pub const OPERATION: Field = 6..8;

    pub const SOURCE_HARDWARE_ADDR: Field = 8..14;

    pub const SOURCE_PROTOCOL_ADDR: Field = 14..18;

    pub const TARGET_HARDWARE_ADDR: Field = 18..24;

    pub const TARGET_PROTOCOL_ADDR: Field = 24..28;
}

/// The bytes of a packet.
pub const LEN: usize = field::TARGET_PROTOCOL_ADDR.end;

// The type of hardware that is Ethernet, the EtherType of IPv4, and the bytes of their addresses.
const ETHERNET: u16 = 1;

const IPV4: u16 = 0x0800;

const ETHERNET_LEN: u8 = 6;

const IPV4_LEN: u8 = 4;

/// Why octets are refused as a packet: the first check that fails.
#[derive(Debug, PartialEq, Eq, Clone, Copy)]
#[non_exhaustive]
pub enum Refusal {
    /// Fewer than 28 bytes.
    Short,
    /// The type of hardware is not Ethernet, 1; this is its number.
    HardwareType(u16),
    /// The type of protocol is not IPv4, 0x0800; this is its number.
    ProtocolType(u16),
    /// The length of a hardware address is not 6 bytes; this is the length.
    HardwareLen(u8),
    /// The length of a protocol address is not 4 bytes; this is the length.
    ProtocolLen(u8),
}

/// A packet for Ethernet and IPv4.
///
/// ```
/// use control_wire::{EthernetAddress, Ipv4Address};
/// use control_wire::headers::arp::{LEN, Operation, Repr};
///
/// // Who has 192.0.2.7?
/// let request = Repr {
///     operation: Operation::Request,
///     source_hardware_addr: EthernetAddress([2, 0, 0, 0, 0, 1]),
///     source_protocol_addr: Ipv4Address::new(192, 0, 2, 1),
///     target_hardware_addr: EthernetAddress([0; 6]),
///     target_protocol_addr: Ipv4Address::new(192, 0, 2, 7),
/// };
/// let mut octets = [0; LEN];
/// request.emit_into(&mut octets);
/// assert_eq!(octets[..8], [0, 1, 8, 0, 6, 4, 0, 1]);
/// assert_eq!(Repr::parse(&octets), Ok(request));
/// ```
#[derive(Debug, PartialEq, Eq, Clone, Copy)]
pub struct Repr {
    /// What the packet is for.
    pub operation: Operation,
    /// The hardware address of the sender.
    pub source_hardware_addr: EthernetAddress,
    /// The address of the sender; 0.0.0.0 in a probe (RFC 5227 section 2.1.1).
    pub source_protocol_addr: Ipv4Address,
    /// The hardware address of the target, which means nothing in a request.
    pub target_hardware_addr: EthernetAddress,
    /// The address of the target.
    pub target_protocol_addr: Ipv4Address,
}

impl Repr {
    /// The packet that these octets begin with; what follows its 28 bytes is padding of Ethernet, and is ignored. Any
    /// addresses are read: a reply with the hardware address of a group is not to be believed (RFC 1812 section 3.3.2).
    pub fn parse(octets: &[u8]) -> Result<Repr, Refusal> {
        if let Some(refusal) = failure(octets) {
            return Err(refusal);
        }
        Ok(read(octets))
    }

    /// The bytes that the packet takes: 28.
    pub fn buffer_len(&self) -> usize {
        LEN
    }

    /// Writes the packet over the front of the octets; the other octets are unchanged. Requires at least 28 bytes.
    ///
    /// # Panics
    ///
    /// May panic where what is asked for above does not hold.
    pub fn emit_into(&self, octets: &mut [u8]) {
        self.write(octets);
    }

    // Writes the fields.
    fn write(&self, octets: &mut [u8]) {
        let mut w = ByteWriter::new(octets);
        w.put_u16(ETHERNET);
        w.put_u16(IPV4);
        w.put_u8(ETHERNET_LEN);
        w.put_u8(IPV4_LEN);
        w.put_u16(self.operation.into());
        w.put_bytes(self.source_hardware_addr.as_bytes());
        w.put_bytes(&self.source_protocol_addr.octets());
        w.put_bytes(self.target_hardware_addr.as_bytes());
        w.put_bytes(&self.target_protocol_addr.octets());
    }
}

// Why these octets are refused; None where they begin with a packet.
fn failure(octets: &[u8]) -> Option<Refusal> {
    if octets.len() < LEN {
        return Some(Refusal::Short);
    }
    let hardware_type = octets.u16_at(field::HARDWARE_TYPE);
    if hardware_type != ETHERNET {
        return Some(Refusal::HardwareType(hardware_type));
    }
    let protocol_type = octets.u16_at(field::PROTOCOL_TYPE);
    if protocol_type != IPV4 {
        return Some(Refusal::ProtocolType(protocol_type));
    }
    let hardware_len = octets[field::HARDWARE_LEN];
    if hardware_len != ETHERNET_LEN {
        return Some(Refusal::HardwareLen(hardware_len));
    }
    let protocol_len = octets[field::PROTOCOL_LEN];
    if protocol_len != IPV4_LEN {
        return Some(Refusal::ProtocolLen(protocol_len));
    }
    None
}

// The packet that these octets begin with.
fn read(octets: &[u8]) -> Repr {
    Repr {
        operation: octets.u16_at(field::OPERATION).into(),
        source_hardware_addr: EthernetAddress::from_bytes(
            octets.field(field::SOURCE_HARDWARE_ADDR),
        ),
        source_protocol_addr: protocol_addr(octets.field(field::SOURCE_PROTOCOL_ADDR)),
        target_hardware_addr: EthernetAddress::from_bytes(
            octets.field(field::TARGET_HARDWARE_ADDR),
        ),
        target_protocol_addr: protocol_addr(octets.field(field::TARGET_PROTOCOL_ADDR)),
    }
}

// The address of these octets.
fn protocol_addr(octets: &[u8]) -> Ipv4Address {
    Ipv4Address::from_octets(octets.try_into().unwrap())
}
