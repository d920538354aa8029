// Made from crates/examples/src/router_list/entries.rt by rust/erase.
//! The entries of the lists that a host keeps of routers, of routes through them, of prefixes on the link, and of
//! recursive DNS servers.

use crate::ranked::Ranked;
use crate::timed_list::Entry;
use control_wire::Ipv6Address;
use control_wire::neighbors::Preference;

// The seconds that stand for a time without end.
const FOREVER: u32 = 0xffffffff;

// The bits of an address.
const ADDRESS_BITS: u32 = 128;

/// The time that is left.
#[derive(Debug, PartialEq, Eq, Clone, Copy)]
pub enum Lifetime {
    /// So many seconds.
    Seconds(u32),
    /// It does not end.
    Forever,
}

impl Lifetime {
    /// The time that so many seconds say, of which 0xffffffff is for ever (RFC 4861 section 4.6.2, RFC 8106 section
    /// 5.1).
    pub fn of(seconds: u32) -> Lifetime {
        if seconds == FOREVER {
            Lifetime::Forever
        } else {
            Lifetime::Seconds(seconds)
        }
    }

    /// What is left when so many seconds have passed.
    pub fn after(self, passed: u32) -> Lifetime {
        match self {
            Lifetime::Seconds(seconds) => Lifetime::Seconds(seconds.saturating_sub(passed)),
            Lifetime::Forever => Lifetime::Forever,
        }
    }

    /// Whether no time is left.
    pub fn is_over(self) -> bool {
        match self {
            Lifetime::Seconds(seconds) => seconds == 0,
            Lifetime::Forever => false,
        }
    }
}

/// A default router (RFC 4861 section 6.3.4).
#[derive(Debug, PartialEq, Eq, Clone, Copy)]
pub struct DefaultRouter {
    /// Its address on the link.
    pub address: Ipv6Address,
    /// Its preference over others: high, medium or low (RFC 4191 section 2.1).
    pub preference: Preference,
    /// For how many seconds it is still one.
    pub lifetime: u32,
}

impl Default for DefaultRouter {
    fn default() -> DefaultRouter {
        DefaultRouter {
            address: Ipv6Address::UNSPECIFIED,
            preference: Preference::Medium,
            lifetime: 0,
        }
    }
}

impl Entry for DefaultRouter {
    type Key = Ipv6Address;

    fn is_of(&self, address: &Ipv6Address) -> bool {
        *address == self.address
    }

    fn after(&self, passed: u32) -> Option<DefaultRouter> {
        if passed >= self.lifetime {
            return None;
        }
        Some(DefaultRouter {
            lifetime: self.lifetime - passed,
            ..*self
        })
    }
}

/// A prefix whose addresses are on the link (RFC 4861 section 6.3.4).
#[derive(Debug, PartialEq, Eq, Clone, Copy)]
pub struct OnLinkPrefix {
    /// The bits of the prefix: 0 to 128.
    pub prefix_len: u8,
    /// The prefix. Its bits behind the first `prefix_len` say nothing.
    pub prefix: Ipv6Address,
    /// Whether hosts may make themselves addresses of it.
    pub autonomous: bool,
    /// How long it is still on the link.
    pub valid: Lifetime,
    /// How long such addresses are still preferred.
    pub preferred: Lifetime,
}

impl Default for OnLinkPrefix {
    fn default() -> OnLinkPrefix {
        OnLinkPrefix {
            prefix_len: 0,
            prefix: Ipv6Address::UNSPECIFIED,
            autonomous: false,
            valid: Lifetime::Seconds(0),
            preferred: Lifetime::Seconds(0),
        }
    }
}

/// What tells prefixes apart.
#[derive(Debug, PartialEq, Eq, Clone, Copy)]
pub struct PrefixKey {
    /// The bits of the prefix: 0 to 128.
    pub prefix_len: u8,
    /// The prefix, or an address with this prefix.
    pub prefix: Ipv6Address,
}

impl Entry for OnLinkPrefix {
    type Key = PrefixKey;

    fn is_of(&self, key: &PrefixKey) -> bool {
        key.prefix_len == self.prefix_len
            && network(&key.prefix, key.prefix_len) == network(&self.prefix, key.prefix_len)
    }

    fn after(&self, passed: u32) -> Option<OnLinkPrefix> {
        let valid = self.valid.after(passed);
        if valid.is_over() {
            return None;
        }
        Some(OnLinkPrefix {
            valid,
            preferred: self.preferred.after(passed),
            ..*self
        })
    }
}

/// A route through a router (RFC 4191 section 2.3).
#[derive(Debug, PartialEq, Eq, Clone, Copy)]
pub struct RouteEntry {
    /// The router's address on the link.
    pub router: Ipv6Address,
    /// The bits of the prefix: 1 to 128.
    pub prefix_len: u8,
    /// The prefix. Its bits behind the first `prefix_len` say nothing.
    pub prefix: Ipv6Address,
    /// The preference of the route over others of the same prefix: high, medium or low.
    pub preference: Preference,
    /// How long the route is still valid.
    pub lifetime: Lifetime,
}

impl Default for RouteEntry {
    fn default() -> RouteEntry {
        RouteEntry {
            router: Ipv6Address::UNSPECIFIED,
            prefix_len: 0,
            prefix: Ipv6Address::UNSPECIFIED,
            preference: Preference::Medium,
            lifetime: Lifetime::Seconds(0),
        }
    }
}

/// What tells routes apart.
#[derive(Debug, PartialEq, Eq, Clone, Copy)]
pub struct RouteKey {
    /// The router's address on the link.
    pub router: Ipv6Address,
    /// The bits of the prefix: 1 to 128.
    pub prefix_len: u8,
    /// The prefix, or an address with this prefix.
    pub prefix: Ipv6Address,
}

impl Entry for RouteEntry {
    type Key = RouteKey;

    fn is_of(&self, key: &RouteKey) -> bool {
        key.router == self.router
            && key.prefix_len == self.prefix_len
            && network(&key.prefix, key.prefix_len) == network(&self.prefix, key.prefix_len)
    }

    fn after(&self, passed: u32) -> Option<RouteEntry> {
        let lifetime = self.lifetime.after(passed);
        if lifetime.is_over() {
            return None;
        }
        Some(RouteEntry { lifetime, ..*self })
    }
}

// A longer prefix is better, and of the same length the higher preference (RFC 4191 section 3.2).
impl Ranked for RouteEntry {
    fn rank(&self, destination: &Ipv6Address) -> u32 {
        if is_within(destination, &self.prefix, self.prefix_len) {
            3 * self.prefix_len as u32 + preference_rank(self.preference)
        } else {
            0
        }
    }
}

// A default router leads everywhere.
impl Ranked for DefaultRouter {
    fn rank(&self, _destination: &Ipv6Address) -> u32 {
        preference_rank(self.preference)
    }
}

// The rank of a preference: 1 to 3.
fn preference_rank(preference: Preference) -> u32 {
    match preference {
        Preference::High => 3,
        Preference::Medium | Preference::Reserved => 2,
        Preference::Low => 1,
    }
}

/// Whether an address has the first bits of a prefix.
pub(crate) fn is_within(address: &Ipv6Address, prefix: &Ipv6Address, prefix_len: u8) -> bool {
    network(address, prefix_len) == network(prefix, prefix_len)
}

// The first bits of an address, as a number.
pub(crate) fn network(address: &Ipv6Address, prefix_len: u8) -> u128 {
    let number = u128::from_be_bytes(address.octets());
    let behind = ADDRESS_BITS.saturating_sub(prefix_len as u32);
    number.checked_shr(behind).unwrap_or(0)
}

/// A recursive DNS server (RFC 8106 section 5.1).
#[derive(Debug, PartialEq, Eq, Clone, Copy)]
pub struct DnsServer {
    /// Its address.
    pub address: Ipv6Address,
    /// How long it may still be asked.
    pub lifetime: Lifetime,
}

impl Default for DnsServer {
    fn default() -> DnsServer {
        DnsServer {
            address: Ipv6Address::UNSPECIFIED,
            lifetime: Lifetime::Seconds(0),
        }
    }
}

impl Entry for DnsServer {
    type Key = Ipv6Address;

    fn is_of(&self, address: &Ipv6Address) -> bool {
        *address == self.address
    }

    fn after(&self, passed: u32) -> Option<DnsServer> {
        let lifetime = self.lifetime.after(passed);
        if lifetime.is_over() {
            return None;
        }
        Some(DnsServer { lifetime, ..*self })
    }
}
