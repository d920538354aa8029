// Made from crates/icmp6_wire/src/ndisc/flags.rt by rust/erase.
//! The flags of router and neighbor advertisements (RFC 4861 sections 4.2 and 4.4).

use bitflags::Flags as _;
use core::fmt;

bitflags::bitflags! {
    /// The flags of a router advertisement (RFC 4861 section 4.2). The calls of a set are those of `bitflags::Flags`.
    #[derive(Debug, PartialEq, Eq, PartialOrd, Ord, Hash, Clone, Copy)]
    pub struct RouterFlags: u8 {
        /// Addresses are to be had by DHCPv6.
        const MANAGED = 0x80;

        /// Other configuration is to be had by DHCPv6.
        const OTHER = 0x40;
    }
}

/// The names of the flags that are set, as `managed,other`; `-` where none is. Bits without a name are not printed.
impl fmt::Display for RouterFlags {
    fn fmt(&self, f: &mut fmt::Formatter<'_>) -> fmt::Result {
        let managed = self.bits() & 0x80 != 0;
        let other = self.bits() & 0x40 != 0;
        f.write_str(match (managed, other) {
            (false, false) => "-",
            (false, true) => "other",
            (true, false) => "managed",
            (true, true) => "managed,other",
        })
    }
}

bitflags::bitflags! {
    /// The flags of a neighbor advertisement (RFC 4861 section 4.4). The calls of a set are those of `bitflags::Flags`.
    #[derive(Debug, PartialEq, Eq, PartialOrd, Ord, Hash, Clone, Copy)]
    pub struct NeighborFlags: u8 {
        /// The sender is a router.
        const ROUTER = 0x80;

        /// The message answers a solicitation.
        const SOLICITED = 0x40;

        /// The address is to take the place of one that is known.
        const OVERRIDE = 0x20;
    }
}

/// The names of the flags that are set, as `solicited,override`; `-` where none is. Bits without a name are not
/// printed.
impl fmt::Display for NeighborFlags {
    fn fmt(&self, f: &mut fmt::Formatter<'_>) -> fmt::Result {
        let router = self.bits() & 0x80 != 0;
        let solicited = self.bits() & 0x40 != 0;
        let overrides = self.bits() & 0x20 != 0;
        f.write_str(match (router, solicited, overrides) {
            (false, false, false) => "-",
            (false, false, true) => "override",
            (false, true, false) => "solicited",
            (false, true, true) => "solicited,override",
            (true, false, false) => "router",
            (true, false, true) => "router,override",
            (true, true, false) => "router,solicited",
            (true, true, true) => "router,solicited,override",
        })
    }
}
