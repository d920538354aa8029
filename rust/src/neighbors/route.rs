// Made from crates/neighbor_wire/src/route.rt by rust/erase.
//! Routes (RFC 4191 section 2.3).

use crate::neighbors::nat64::address_from;
use crate::neighbors::preference::Preference;
use crate::wirebase::Ipv6Address;
use core::fmt;

/// A route through the router that sends it.
#[derive(Debug, PartialEq, Eq, Clone, Copy)]
pub struct Route<'a> {
    /// The bits of the prefix: 0 to 128, and no more than `prefix` has.
    pub prefix_len: u8,
    /// The preference of the route over others of the same prefix.
    pub preference: Preference,
    /// How long the route is valid, in seconds; 0xffffffff is for ever.
    pub lifetime: u32,
    /// The octets of the prefix: 0, 8 or 16; the later octets of the address are zero.
    pub prefix: &'a [u8],
}

impl Route<'_> {
    /// The address that the octets of the prefix begin, with zeros behind them; octets behind the sixteenth are
    /// ignored. Of the bits behind the first `prefix_len`, which say nothing, it has those that were sent.
    pub fn destination(&self) -> Ipv6Address {
        address_from(self.prefix)
    }
}

/// Prints the route with its fields, as `route 2001:db8::/48 preference=high lifetime=3600`.
impl fmt::Display for Route<'_> {
    fn fmt(&self, f: &mut fmt::Formatter<'_>) -> fmt::Result {
        let destination = self.destination();
        let Route {
            prefix_len,
            preference,
            lifetime,
            ..
        } = *self;
        write!(
            f,
            "route {destination}/{prefix_len} preference={preference} lifetime={lifetime}"
        )
    }
}
