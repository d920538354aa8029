// Made from crates/neighbor_wire/src/prefix.rt by rust/erase.
//! Prefixes of addresses (RFC 4861 section 4.6.2, RFC 6275 section 7.2).

use crate::wirebase::Ipv6Address;
use core::fmt;

/// A prefix of addresses, which a router advertises.
#[derive(Debug, PartialEq, Eq, Clone, Copy)]
pub struct Prefix {
    /// The bits of the prefix: 0 to 128.
    pub prefix_len: u8,
    /// Addresses of the prefix are on the link: the flag L.
    pub on_link: bool,
    /// Hosts may make themselves addresses of the prefix: the flag A.
    pub autonomous: bool,
    /// The prefix is the whole address of the router: the flag R (RFC 6275 section 7.2).
    pub router_address: bool,
    /// How long the prefix is on the link, in seconds; 0xffffffff is for ever.
    pub valid_lifetime: u32,
    /// How long addresses made of the prefix are preferred, in seconds; 0xffffffff is for ever.
    pub preferred_lifetime: u32,
    /// The prefix, or an address with this prefix.
    pub prefix: Ipv6Address,
}

/// Prints the prefix with its fields, as `prefix 2001:db8::/64 on_link=true autonomous=true router_address=false
/// valid_lifetime=3600 preferred_lifetime=3600`.
impl fmt::Display for Prefix {
    fn fmt(&self, f: &mut fmt::Formatter<'_>) -> fmt::Result {
        let Prefix {
            prefix_len,
            on_link,
            autonomous,
            router_address,
            valid_lifetime,
            preferred_lifetime,
            prefix,
        } = *self;
        write!(
            f,
            "prefix {prefix}/{prefix_len} on_link={on_link} autonomous={autonomous} router_address={router_address} \
             valid_lifetime={valid_lifetime} preferred_lifetime={preferred_lifetime}"
        )
    }
}
