// Made from crates/opt_wire/src/ndiscoption/tables.rt by rust/erase.
//! The types of neighbor discovery options, and the flags of a prefix (RFC 4861 section 4.6).

use bitflags::Flags as _;
use core::fmt;

/// The type of an option, one byte (RFC 4861 section 4.6).
#[derive(Debug, PartialEq, Eq, PartialOrd, Ord, Clone, Copy)]
pub enum Type {
    /// The link-layer address of the sender.
    SourceLinkLayerAddr,
    /// The link-layer address of the target.
    TargetLinkLayerAddr,
    /// A prefix of addresses on the link.
    PrefixInformation,
    /// The packet that a redirect quotes.
    RedirectedHeader,
    /// The MTU of the link.
    Mtu,
    /// Any other type, by its number.
    Unknown(u8),
}

impl From<u8> for Type {
    fn from(number: u8) -> Type {
        named(number)
    }
}

fn named(number: u8) -> Type {
    match number {
        1 => Type::SourceLinkLayerAddr,
        2 => Type::TargetLinkLayerAddr,
        3 => Type::PrefixInformation,
        4 => Type::RedirectedHeader,
        5 => Type::Mtu,
        other => Type::Unknown(other),
    }
}

impl From<Type> for u8 {
    fn from(kind: Type) -> u8 {
        match kind {
            Type::SourceLinkLayerAddr => 1,
            Type::TargetLinkLayerAddr => 2,
            Type::PrefixInformation => 3,
            Type::RedirectedHeader => 4,
            Type::Mtu => 5,
            Type::Unknown(other) => other,
        }
    }
}

/// The name of the type, or the number of an unknown type.
impl fmt::Display for Type {
    fn fmt(&self, f: &mut fmt::Formatter<'_>) -> fmt::Result {
        let words = match self {
            Type::SourceLinkLayerAddr => "source link-layer address",
            Type::TargetLinkLayerAddr => "target link-layer address",
            Type::PrefixInformation => "prefix information",
            Type::RedirectedHeader => "redirected header",
            Type::Mtu => "mtu",
            Type::Unknown(number) => return write!(f, "{number}"),
        };
        f.write_str(words)
    }
}

bitflags::bitflags! {
    /// The flags of a prefix (RFC 4861 section 4.6.2). The calls of a set are those of `bitflags::Flags`.
    #[derive(Debug, PartialEq, Eq, PartialOrd, Ord, Hash, Clone, Copy)]
    pub struct PrefixInfoFlags: u8 {
        /// Addresses of the prefix are on the link.
        const ON_LINK = 0x80;

        /// Hosts may make themselves addresses of the prefix.
        const ADDRCONF = 0x40;
    }
}

/// The names of the flags that are set, as `on_link,addrconf`; `-` where none is. Bits without a name are not printed.
impl fmt::Display for PrefixInfoFlags {
    fn fmt(&self, f: &mut fmt::Formatter<'_>) -> fmt::Result {
        let on_link = self.bits() & 0x80 != 0;
        let addrconf = self.bits() & 0x40 != 0;
        f.write_str(match (on_link, addrconf) {
            (false, false) => "-",
            (false, true) => "addrconf",
            (true, false) => "on_link",
            (true, true) => "on_link,addrconf",
        })
    }
}
