// Made from crates/extension_wire/src/interface.rt by rust/erase.
//! What an object says of an interface (RFC 5837).

mod reading;
mod writing;

use crate::extensions::family::Family;
use crate::extensions::refusal::InterfaceRefusal;
use crate::wirebase::ByteWriter;
use core::fmt;

/// The class of an object about an interface (RFC 5837 section 4).
pub const CLASS: u8 = 2;

/// The longest name, in bytes.
pub const MAX_NAME_LEN: usize = 63;

// The bits of the C-Type; the role is above them, and two bits between are reserved.
mod bit {
    pub const ROLE: u8 = 0x40;

    pub const INDEX: u8 = 0x08;

    pub const ADDRESS: u8 = 0x04;

    pub const NAME: u8 = 0x02;

    pub const MTU: u8 = 0x01;
}

/// What the interface had to do with the datagram (RFC 5837 section 4.1).
#[derive(Debug, PartialEq, Eq, Clone, Copy)]
pub enum Role {
    /// The interface of IP on which the datagram came.
    Incoming,
    /// The component below IP on which it came, as a member of a bundle.
    SubIp,
    /// The interface of IP on which it would have left.
    Outgoing,
    /// The next hop to which it would have been sent.
    NextHop,
}

impl Role {
    // The role that has this number of two bits.
    fn of(number: u8) -> Role {
        match number {
            0 => Role::Incoming,
            1 => Role::SubIp,
            2 => Role::Outgoing,
            _ => Role::NextHop,
        }
    }

    // Its number.
    fn number(self) -> u8 {
        match self {
            Role::Incoming => 0,
            Role::SubIp => 1,
            Role::Outgoing => 2,
            Role::NextHop => 3,
        }
    }
}

/// The role in words.
impl fmt::Display for Role {
    fn fmt(&self, f: &mut fmt::Formatter<'_>) -> fmt::Result {
        f.write_str(match self {
            Role::Incoming => "incoming",
            Role::SubIp => "below IP",
            Role::Outgoing => "outgoing",
            Role::NextHop => "next hop",
        })
    }
}

/// The address of an interface (RFC 5837 section 4.2).
#[derive(Debug, PartialEq, Eq, Clone, Copy)]
pub struct InterfaceAddress<'a> {
    /// Whether it is of IPv4 or of IPv6; that need not be the version of the message.
    pub family: Family,
    /// Its bytes: 4 or 16.
    pub octets: &'a [u8],
}

/// What an object says of an interface; each part may be left out.
#[derive(Debug, PartialEq, Eq, Clone, Copy)]
pub struct InterfaceInformation<'a> {
    /// What the interface had to do with the datagram.
    pub role: Role,
    /// Its index, as in the router's management information (RFC 2863).
    pub index: Option<u32>,
    /// Its address.
    pub address: Option<InterfaceAddress<'a>>,
    /// Its name (RFC 5837 section 4.3), at most 63 bytes of UTF-8, which is not checked, without the zeros that pad it.
    pub name: Option<&'a [u8]>,
    /// The largest datagram that it takes, in bytes.
    pub mtu: Option<u32>,
}

impl<'a> InterfaceInformation<'a> {
    /// What an object of class [`CLASS`] with this C-Type and payload says. Refused where the payload ends before the
    /// parts that the C-Type tells of, at an address of another family than IPv4 and IPv6, and at a name whose length
    /// is no multiple of 4 from 4 to 64: by the part that comes first. The reserved bits of the C-Type and the
    /// reserved bytes before an address are not looked at, nor is what follows the parts that the C-Type tells of.
    pub fn parse(
        c_type: u8,
        payload: &'a [u8],
    ) -> Result<InterfaceInformation<'a>, InterfaceRefusal> {
        let (index, behind) = reading::read_number(c_type / bit::INDEX % 2 == 1, payload)?;
        let (address, behind) = reading::read_address(c_type / bit::ADDRESS % 2 == 1, behind)?;
        let (name, behind) = reading::read_name(c_type / bit::NAME % 2 == 1, behind)?;
        let (mtu, _) = reading::read_number(c_type / bit::MTU % 2 == 1, behind)?;
        Ok(InterfaceInformation {
            role: Role::of(c_type / bit::ROLE),
            index,
            address,
            name,
            mtu,
        })
    }

    /// The C-Type of its object: the role, and which parts there are.
    pub fn c_type(&self) -> u8 {
        let index = if self.index.is_some() { bit::INDEX } else { 0 };
        let address = if self.address.is_some() {
            bit::ADDRESS
        } else {
            0
        };
        let name = if self.name.is_some() { bit::NAME } else { 0 };
        let mtu = if self.mtu.is_some() { bit::MTU } else { 0 };
        self.role.number() * bit::ROLE + index + address + name + mtu
    }

    /// The bytes of the payload.
    pub fn buffer_len(&self) -> usize {
        let index = if self.index.is_some() { 4 } else { 0 };
        let address = writing::address_len(&self.address);
        let name = writing::name_len(&self.name);
        let mtu = if self.mtu.is_some() { 4 } else { 0 };
        index + address + name + mtu
    }

    /// Writes the payload over the front of the octets; the others are unchanged. Its object has the C-Type
    /// [`InterfaceInformation::c_type`]. Requires at least `buffer_len` bytes, an address of as many as its family has,
    /// and a name of 63 at most.
    ///
    /// # Panics
    ///
    /// May panic where what is asked for above does not hold.
    pub fn emit_into(&self, octets: &mut [u8]) {
        let mut w = ByteWriter::new(octets);
        writing::put(&mut w, self);
    }
}
