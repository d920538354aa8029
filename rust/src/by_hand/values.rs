//! What a Rust programmer expects of a value: errors are errors, and addresses have an order, a hash, and a Debug that
//! can be read.
//!
//! Reasons may get more cases in a later version, and so may the values that are open in smoltcp. So another crate
//! matches them with an arm for what it does not name:
//!
//! ```
//! use control_wire::{icmpv4::Repr, igmp::Refusal};
//!
//! fn is_echo(message: &Repr<'_>) -> bool {
//!     match message {
//!         Repr::EchoRequest { .. } | Repr::EchoReply { .. } => true,
//!         Repr::DstUnreachable { .. } | Repr::TimeExceeded { .. } => false,
//!         _ => false,
//!     }
//! }
//!
//! fn is_short(refusal: Refusal) -> bool {
//!     match refusal {
//!         Refusal::Short => true,
//!         Refusal::UnknownType(_) | Refusal::Group(_) => false,
//!         _ => false,
//!     }
//! }
//! ```
//!
//! Without one, this is not compiled:
//!
//! ```compile_fail,E0004
//! use control_wire::icmpv4::Repr;
//!
//! fn is_echo(message: &Repr<'_>) -> bool {
//!     match message {
//!         Repr::EchoRequest { .. } | Repr::EchoReply { .. } => true,
//!         Repr::DstUnreachable { .. } | Repr::TimeExceeded { .. } => false,
//!     }
//! }
//! ```
//!
//! Nor is this, which names each case of today:
//!
//! ```compile_fail,E0004
//! use control_wire::igmp::Refusal;
//!
//! fn is_short(refusal: Refusal) -> bool {
//!     match refusal {
//!         Refusal::Short => true,
//!         Refusal::UnknownType(_) | Refusal::Group(_) => false,
//!     }
//! }
//! ```

use crate::{
    Error, EthernetAddress, Ipv4Address, Ipv6Address, Ipv6Refusal, RawHardwareAddress, dhcpv4, dns,
    extensions, frames, groups, headers, icmpv4, icmpv6, igmp, ipv6ext_header, ipv6hbh, ipv6option,
    mld, ndisc, ndiscoption, neighbors, quotes, record,
};
use core::cmp::Ordering;
use core::fmt;
use core::hash::{Hash, Hasher};

/// What a call answers that refuses, and why it does, are errors.
macro_rules! errors {
    ($($error:path),+ $(,)?) => { $( impl core::error::Error for $error {} )+ };
}

errors! {
    Error,
    Ipv6Refusal,
    dhcpv4::Refusal,
    dns::NameRefusal,
    dns::Refusal,
    extensions::InterfaceRefusal,
    extensions::LabelRefusal,
    extensions::ObjectRefusal,
    extensions::SplitRefusal,
    extensions::StructureRefusal,
    frames::datagram::Refusal,
    frames::link::Refusal,
    frames::udp::Refusal,
    groups::Full,
    groups::Refusal,
    headers::OptionRefusal,
    headers::arp::Refusal,
    headers::ethernet::Refusal,
    headers::icmpv4::Refusal,
    headers::icmpv6::Refusal,
    headers::ipv4::Refusal,
    headers::ipv6_fragment::Refusal,
    icmpv4::Refusal,
    icmpv6::Refusal,
    igmp::Refusal,
    ipv6ext_header::Refusal,
    ipv6hbh::Refusal,
    ipv6option::Refusal,
    mld::RecordRefusal,
    mld::Refusal,
    ndisc::Refusal,
    ndiscoption::Refusal,
    neighbors::NameRefusal,
    neighbors::Refusal,
    neighbors::Unwritten,
    quotes::icmpv4_error::Refusal,
    quotes::message::Icmpv4Refusal,
    quotes::message::Icmpv6Refusal,
    quotes::quote::Refusal,
    record::DataRefusal,
    record::NameRefusal,
    record::NameTextRefusal,
    record::OptionRefusal,
    record::PartRefusal,
    record::Refusal,
    record::TextRefusal,
}

/// Addresses are ordered and hashed as their octets are.
macro_rules! by_octets {
    ($($address:ident: $octets:ident),+ $(,)?) => { $(
        impl PartialOrd for $address {
            fn partial_cmp(&self, other: &$address) -> Option<Ordering> {
                Some(self.cmp(other))
            }
        }

        impl Ord for $address {
            fn cmp(&self, other: &$address) -> Ordering {
                self.$octets().cmp(&other.$octets())
            }
        }

        impl Hash for $address {
            fn hash<H: Hasher>(&self, state: &mut H) {
                self.$octets().hash(state);
            }
        }
    )+ };
}

by_octets! {
    EthernetAddress: as_bytes,
    Ipv4Address: octets,
    Ipv6Address: octets,
    RawHardwareAddress: as_bytes,
}

impl fmt::Debug for Ipv4Address {
    fn fmt(&self, f: &mut fmt::Formatter<'_>) -> fmt::Result {
        fmt::Display::fmt(self, f)
    }
}

impl fmt::Debug for Ipv6Address {
    fn fmt(&self, f: &mut fmt::Formatter<'_>) -> fmt::Result {
        fmt::Display::fmt(self, f)
    }
}
