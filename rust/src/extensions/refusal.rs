// Made from crates/extension_wire/src/refusal.rt by rust/erase.
//! Why octets are refused, each by the check that fails first.

use core::fmt;

/// Why an error's length does not split it (RFC 4884 section 4).
#[derive(Debug, PartialEq, Eq, Clone, Copy)]
#[non_exhaustive]
pub enum SplitRefusal {
    /// The original datagram is less than 128 bytes by the length.
    Short,
    /// It is more than there are.
    Cut,
}

/// What is wrong with the length.
impl fmt::Display for SplitRefusal {
    fn fmt(&self, f: &mut fmt::Formatter<'_>) -> fmt::Result {
        f.write_str(match self {
            SplitRefusal::Short => "the original datagram has fewer than 128 bytes by its length",
            SplitRefusal::Cut => "the original datagram is cut",
        })
    }
}

/// Why octets are refused as an extension structure (RFC 4884 section 7).
#[derive(Debug, PartialEq, Eq, Clone, Copy)]
#[non_exhaustive]
pub enum StructureRefusal {
    /// Fewer than the 4 bytes of the header.
    Short,
    /// A version other than 2, by its number.
    Version(u8),
    /// The checksum is neither zero, which says that there is none, nor right.
    Checksum,
}

/// What is wrong with the extensions.
impl fmt::Display for StructureRefusal {
    fn fmt(&self, f: &mut fmt::Formatter<'_>) -> fmt::Result {
        match self {
            StructureRefusal::Short => f.write_str("the header of the extensions is cut"),
            StructureRefusal::Version(version) => {
                write!(f, "the extensions are of version {version}")
            }
            StructureRefusal::Checksum => f.write_str("the checksum of the extensions is wrong"),
        }
    }
}

/// Why octets do not begin with an object (RFC 4884 section 8).
#[derive(Debug, PartialEq, Eq, Clone, Copy)]
#[non_exhaustive]
pub enum ObjectRefusal {
    /// Fewer than the 4 bytes of an object's header.
    Short,
    /// The length is less than that of the header, which it counts.
    Length,
    /// The length is more than there is.
    Cut,
}

/// What is wrong with the object.
impl fmt::Display for ObjectRefusal {
    fn fmt(&self, f: &mut fmt::Formatter<'_>) -> fmt::Result {
        f.write_str(match self {
            ObjectRefusal::Short => "the header of the object is cut",
            ObjectRefusal::Length => "the object has fewer than 4 bytes by its length",
            ObjectRefusal::Cut => "the object is cut",
        })
    }
}

/// Why a payload is refused as a stack of labels (RFC 4950 section 3): its bytes are no whole number of entries, of 4
/// bytes each.
#[derive(Debug, PartialEq, Eq, Clone, Copy)]
pub struct LabelRefusal;

/// What is wrong with the stack.
impl fmt::Display for LabelRefusal {
    fn fmt(&self, f: &mut fmt::Formatter<'_>) -> fmt::Result {
        f.write_str("the stack of labels ends within an entry")
    }
}

/// Why a payload is refused as what an object says of an interface (RFC 5837 section 4).
#[derive(Debug, PartialEq, Eq, Clone, Copy)]
#[non_exhaustive]
pub enum InterfaceRefusal {
    /// The payload ends before the parts that the C-Type tells of.
    Cut,
    /// An address of a family other than 1, IPv4, and 2, IPv6, by its number.
    AddressFamily(u16),
    /// The length of a name, which counts its own byte, is no multiple of 4 from 4 to 64.
    NameLength(u8),
}

/// What is wrong with the payload.
impl fmt::Display for InterfaceRefusal {
    fn fmt(&self, f: &mut fmt::Formatter<'_>) -> fmt::Result {
        match self {
            InterfaceRefusal::Cut => f.write_str("the object about the interface is cut"),
            InterfaceRefusal::AddressFamily(family) => {
                write!(f, "the interface has an address of family {family}")
            }
            InterfaceRefusal::NameLength(len) => {
                write!(f, "the name of the interface has a length of {len}")
            }
        }
    }
}
