// Made from crates/dns_wire/src/dns/tables.rt by rust/erase.
//! The numbers of DNS messages: kinds of query, outcomes, types of record, and flags.

/// The kind of a query, four bits (RFC 1035 section 4.1.1).
#[derive(Debug, PartialEq, Eq, PartialOrd, Ord, Hash, Clone, Copy)]
pub enum Opcode {
    /// A standard query.
    Query,
    /// A server status request. Its number is smoltcp's, 1, which RFC 1035 gives to an inverse query; there it is 2.
    Status,
    /// Any other kind, by its number.
    Unknown(u8),
}

impl From<u8> for Opcode {
    fn from(number: u8) -> Opcode {
        match number {
            0 => Opcode::Query,
            1 => Opcode::Status,
            other => Opcode::Unknown(other),
        }
    }
}

impl From<Opcode> for u8 {
    fn from(opcode: Opcode) -> u8 {
        match opcode {
            Opcode::Query => 0,
            Opcode::Status => 1,
            Opcode::Unknown(other) => other,
        }
    }
}

/// The outcome of a query, four bits (RFC 1035 section 4.1.1, RFC 2136 section 2.2).
#[derive(Debug, PartialEq, Eq, PartialOrd, Ord, Hash, Clone, Copy)]
pub enum Rcode {
    /// No error.
    NoError,
    /// The server could not read the query.
    FormErr,
    /// The server failed.
    ServFail,
    /// The name does not exist.
    NXDomain,
    /// The server does not know this kind of query.
    NotImp,
    /// The server refuses, by its policy.
    Refused,
    /// A name exists that should not.
    YXDomain,
    /// A set of records exists that should not.
    YXRRSet,
    /// A set of records that should exist does not.
    NXRRSet,
    /// The server has no authority over the zone.
    NotAuth,
    /// A name is not in the zone.
    NotZone,
    /// Any other outcome, by its number.
    Unknown(u8),
}

impl From<u8> for Rcode {
    fn from(number: u8) -> Rcode {
        rcode_numbered(number)
    }
}

// The outcome with this number.
fn rcode_numbered(number: u8) -> Rcode {
    match number {
        0 => Rcode::NoError,
        1 => Rcode::FormErr,
        2 => Rcode::ServFail,
        3 => Rcode::NXDomain,
        4 => Rcode::NotImp,
        5 => Rcode::Refused,
        6 => Rcode::YXDomain,
        7 => Rcode::YXRRSet,
        8 => Rcode::NXRRSet,
        9 => Rcode::NotAuth,
        10 => Rcode::NotZone,
        other => Rcode::Unknown(other),
    }
}

impl From<Rcode> for u8 {
    fn from(rcode: Rcode) -> u8 {
        match rcode {
            Rcode::NoError => 0,
            Rcode::FormErr => 1,
            Rcode::ServFail => 2,
            Rcode::NXDomain => 3,
            Rcode::NotImp => 4,
            Rcode::Refused => 5,
            Rcode::YXDomain => 6,
            Rcode::YXRRSet => 7,
            Rcode::NXRRSet => 8,
            Rcode::NotAuth => 9,
            Rcode::NotZone => 10,
            Rcode::Unknown(other) => other,
        }
    }
}

/// The type of a record, two bytes (RFC 1035 section 3.2.2, RFC 3596 section 2.1).
#[derive(Debug, PartialEq, Eq, PartialOrd, Ord, Hash, Clone, Copy)]
pub enum Type {
    /// An IPv4 address.
    A,
    /// A name server.
    Ns,
    /// The canonical name of an alias.
    Cname,
    /// The start of a zone of authority.
    Soa,
    /// An IPv6 address.
    Aaaa,
    /// Any other type, by its number.
    Unknown(u16),
}

impl From<u16> for Type {
    fn from(number: u16) -> Type {
        type_numbered(number)
    }
}

// The type with this number.
fn type_numbered(number: u16) -> Type {
    match number {
        1 => Type::A,
        2 => Type::Ns,
        5 => Type::Cname,
        6 => Type::Soa,
        28 => Type::Aaaa,
        other => Type::Unknown(other),
    }
}

impl From<Type> for u16 {
    fn from(kind: Type) -> u16 {
        match kind {
            Type::A => 1,
            Type::Ns => 2,
            Type::Cname => 5,
            Type::Soa => 6,
            Type::Aaaa => 28,
            Type::Unknown(other) => other,
        }
    }
}

bitflags::bitflags! {
    /// The flags of a message (RFC 1035 section 4.1.1, RFC 4035 section 3.2). The calls of a set are those of
    /// `bitflags::Flags`.
    #[derive(Debug, PartialEq, Eq, PartialOrd, Ord, Hash, Clone, Copy)]
    pub struct Flags: u16 {
        /// The message is a response.
        const RESPONSE = 0x8000;

        /// The server has authority over the name.
        const AUTHORITATIVE = 0x0400;

        /// The message was cut to what its transport carries.
        const TRUNCATED = 0x0200;

        /// The server is to follow the query itself.
        const RECURSION_DESIRED = 0x0100;

        /// The server can follow queries itself.
        const RECURSION_AVAILABLE = 0x0080;

        /// The server has verified the data.
        const AUTHENTIC_DATA = 0x0020;

        /// The server is not to verify the data.
        const CHECK_DISABLED = 0x0010;
    }
}
