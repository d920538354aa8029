// Made from crates/opt_wire/src/ipv6option/tables.rt by rust/erase.
//! The numbers of options, of router alerts, and of the treatment of unknown options (RFC 8200 section 4.2, RFC 2711).

use core::fmt;

/// The type of an option, one byte (RFC 8200 section 4.2).
#[derive(Debug, PartialEq, Eq, PartialOrd, Ord, Clone, Copy)]
pub enum Type {
    /// One byte of padding.
    Pad1,
    /// Two bytes of padding or more.
    PadN,
    /// Router alert (RFC 2711).
    RouterAlert,
    /// RPL option (RFC 6553).
    Rpl,
    /// Any other type, by its number.
    Unknown(u8),
}

impl From<u8> for Type {
    fn from(number: u8) -> Type {
        match number {
            0 => Type::Pad1,
            1 => Type::PadN,
            5 => Type::RouterAlert,
            0x63 => Type::Rpl,
            other => Type::Unknown(other),
        }
    }
}

impl From<Type> for u8 {
    fn from(kind: Type) -> u8 {
        match kind {
            Type::Pad1 => 0,
            Type::PadN => 1,
            Type::RouterAlert => 5,
            Type::Rpl => 0x63,
            Type::Unknown(other) => other,
        }
    }
}

/// The name, or the number where it has none.
impl fmt::Display for Type {
    fn fmt(&self, f: &mut fmt::Formatter<'_>) -> fmt::Result {
        let words = match *self {
            Type::Pad1 => "Pad1",
            Type::PadN => "PadN",
            Type::RouterAlert => "RouterAlert",
            Type::Rpl => "RPL",
            Type::Unknown(number) => return write!(f, "{number}"),
        };
        f.write_str(words)
    }
}

/// What a router alert announces that the packet holds, two bytes (RFC 2711 section 2.1).
#[derive(Debug, PartialEq, Eq, PartialOrd, Ord, Clone, Copy)]
pub enum RouterAlert {
    /// A message of multicast listener discovery.
    MulticastListenerDiscovery,
    /// A message of RSVP.
    Rsvp,
    /// A message of active networks.
    ActiveNetworks,
    /// Any other value, by its number.
    Unknown(u16),
}

impl RouterAlert {
    /// The bytes of a router alert's data: one number of two bytes (RFC 2711 section 2.1).
    pub const DATA_LEN: u8 = 2;
}

impl From<u16> for RouterAlert {
    fn from(number: u16) -> RouterAlert {
        match number {
            0 => RouterAlert::MulticastListenerDiscovery,
            1 => RouterAlert::Rsvp,
            2 => RouterAlert::ActiveNetworks,
            other => RouterAlert::Unknown(other),
        }
    }
}

impl From<RouterAlert> for u16 {
    fn from(alert: RouterAlert) -> u16 {
        match alert {
            RouterAlert::MulticastListenerDiscovery => 0,
            RouterAlert::Rsvp => 1,
            RouterAlert::ActiveNetworks => 2,
            RouterAlert::Unknown(other) => other,
        }
    }
}

/// The name of what the router alert announces, or its number.
impl fmt::Display for RouterAlert {
    fn fmt(&self, f: &mut fmt::Formatter<'_>) -> fmt::Result {
        let words = match *self {
            RouterAlert::MulticastListenerDiscovery => "multicast listener discovery",
            RouterAlert::Rsvp => "RSVP",
            RouterAlert::ActiveNetworks => "active networks",
            RouterAlert::Unknown(number) => return write!(f, "{number}"),
        };
        f.write_str(words)
    }
}

// A router alert as it is printed in an option.
pub(super) struct AlertName(pub(super) RouterAlert);

impl fmt::Display for AlertName {
    fn fmt(&self, f: &mut fmt::Formatter<'_>) -> fmt::Result {
        let words = match self.0 {
            RouterAlert::MulticastListenerDiscovery => "MulticastListenerDiscovery",
            RouterAlert::Rsvp => "Rsvp",
            RouterAlert::ActiveNetworks => "ActiveNetworks",
            RouterAlert::Unknown(number) => return write!(f, "Unknown({number})"),
        };
        f.write_str(words)
    }
}

/// What a node does with a packet that has an option of a type that it does not know: the two highest bits of the type
/// (RFC 8200 section 4.2). `as u8` gives these bits in their places.
#[derive(Debug, PartialEq, Eq, PartialOrd, Ord, Hash, Clone, Copy)]
pub enum FailureType {
    /// Skip the option and go on.
    Skip = 0x00,
    /// Discard the packet.
    Discard = 0x40,
    /// Discard the packet and tell its sender.
    DiscardSendAll = 0x80,
    /// Discard the packet and tell its sender, unless the packet went to a multicast address.
    DiscardSendUnicast = 0xc0,
}

impl From<u8> for FailureType {
    fn from(number: u8) -> FailureType {
        match number >> 6 {
            0 => FailureType::Skip,
            1 => FailureType::Discard,
            2 => FailureType::DiscardSendAll,
            _ => FailureType::DiscardSendUnicast,
        }
    }
}

impl From<FailureType> for u8 {
    fn from(failure: FailureType) -> u8 {
        failure as u8
    }
}

impl fmt::Display for FailureType {
    fn fmt(&self, f: &mut fmt::Formatter<'_>) -> fmt::Result {
        let words = match *self {
            FailureType::Skip => "skip",
            FailureType::Discard => "discard",
            FailureType::DiscardSendAll => "discard and send error",
            FailureType::DiscardSendUnicast => "discard and send error if unicast",
        };
        f.write_str(words)
    }
}

impl From<Type> for FailureType {
    fn from(kind: Type) -> FailureType {
        FailureType::from(u8::from(kind))
    }
}
