// Made from crates/examples/src/router_list.rt by rust/erase.
//! What a host keeps of the advertisements of routers, for as long as they say: the default routers of the link, routes
//! through its routers, the prefixes whose addresses are on it, and recursive DNS servers (RFC 4861 section 6.3.4, RFC
//! 4191 section 3.1, RFC 8106 section 5.1); and which neighbor a packet goes to by these.

pub mod entries;

use crate::ranked::best;
use crate::router::{options, router_information};
use crate::timed_list::{pass, remove, renew};
use arrayvec::ArrayVec;
use control_wire::Ipv6Address;
use control_wire::neighbors::preference::router_preference;
use control_wire::neighbors::{
    NeighborOption, NeighborOptions, Preference, Prefix, Route, Servers,
};
use entries::{
    DefaultRouter, DnsServer, Lifetime, OnLinkPrefix, PrefixKey, RouteEntry, RouteKey, is_within,
};

/// The most default routers that are kept.
pub const MOST_ROUTERS: usize = 4;

/// The most routes that are kept.
pub const MOST_ROUTES: usize = 8;

/// The most prefixes that are kept.
pub const MOST_PREFIXES: usize = 8;

/// The most recursive DNS servers that are kept.
pub const MOST_SERVERS: usize = 4;

/// The lists of a host. What finds its list full is not kept, and what the list has stays.
pub struct RouterList {
    /// The default routers, in the order in which they were first heard.
    pub routers: ArrayVec<DefaultRouter, MOST_ROUTERS>,
    /// The routes through routers, in the order in which they were first heard.
    pub routes: ArrayVec<RouteEntry, MOST_ROUTES>,
    /// The prefixes on the link.
    pub prefixes: ArrayVec<OnLinkPrefix, MOST_PREFIXES>,
    /// The recursive DNS servers.
    pub servers: ArrayVec<DnsServer, MOST_SERVERS>,
}

impl RouterList {
    /// Empty lists.
    pub fn new() -> RouterList {
        RouterList {
            routers: ArrayVec::new(),
            routes: ArrayVec::new(),
            prefixes: ArrayVec::new(),
            servers: ArrayVec::new(),
        }
    }

    /// Lets so many seconds pass: what is no longer valid is dropped.
    pub fn pass(&mut self, seconds: u32) {
        pass(&mut self.routers, seconds);
        pass(&mut self.routes, seconds);
        pass(&mut self.prefixes, seconds);
        pass(&mut self.servers, seconds);
    }

    /// Takes what a router's advertisement tells, which came from `source` with this hop limit and went to
    /// `destination`: the router that sent it, its routes, prefixes and DNS servers are kept for as long as it says,
    /// and removed where it says no time. False exactly where the octets are no valid advertisement of a router (RFC
    /// 4861 section 6.1.2); then nothing changes.
    pub fn learn(
        &mut self,
        source: &Ipv6Address,
        destination: &Ipv6Address,
        hop_limit: u8,
        octets: &[u8],
    ) -> bool {
        match router_information(source, destination, hop_limit, octets) {
            Some(_) => {
                self.learn_all(source, octets);
                true
            }
            None => false,
        }
    }

    /// The neighbor that packets for a destination go to: the destination itself where it is on the link, as multicast
    /// and link-local addresses are, and those with a prefix of the link; or else the router of the route with the
    /// longest prefix, and of several of one length with the highest preference; or else the default router with the
    /// highest preference (RFC 4861 section 5.2, RFC 4191 section 3.2). None where there is none of these.
    pub fn next_hop(&self, destination: &Ipv6Address) -> Option<Ipv6Address> {
        if destination.is_multicast() || destination.is_link_local() {
            return Some(*destination);
        }
        if is_on_link(self.prefixes.as_slice(), destination) {
            return Some(*destination);
        }
        if let Some(route) = best(self.routes.as_slice(), destination) {
            return Some(route.router);
        }
        match best(self.routers.as_slice(), destination) {
            Some(router) => Some(router.address),
            None => None,
        }
    }

    /// Removes a default router, as one that tells by an advertisement of its own that it is a router no longer (RFC
    /// 4861 section 7.2.5).
    pub fn remove_router(&mut self, address: &Ipv6Address) {
        remove(&mut self.routers, address);
    }

    // Takes what the octets of an advertisement tell of the router, and what its options do.
    fn learn_all(&mut self, source: &Ipv6Address, octets: &[u8]) {
        learn_router(&mut self.routers, source, octets);
        self.learn_options(source, options(octets));
    }

    // Takes what the options of an advertisement of this router tell.
    fn learn_options(&mut self, source: &Ipv6Address, options: &[u8]) {
        for option in NeighborOptions::new(options) {
            if let Ok(option) = option {
                self.learn_option(source, &option);
            }
        }
    }

    // Takes what an option tells.
    fn learn_option(&mut self, source: &Ipv6Address, option: &NeighborOption<'_>) {
        match *option {
            NeighborOption::Route(route) => self.learn_route(source, &route),
            NeighborOption::Prefix(prefix) => learn_prefix(&mut self.prefixes, &prefix),
            NeighborOption::DnsServers { lifetime, servers } => {
                learn_servers(&mut self.servers, lifetime, servers);
            }
            _ => {}
        }
    }

    // Takes what an option tells of a route.
    fn learn_route(&mut self, source: &Ipv6Address, told: &Route<'_>) {
        if let Preference::Reserved = told.preference {
            return;
        }
        if told.prefix_len == 0 {
            keep_router(&mut self.routers, source, told.preference, told.lifetime);
        } else {
            let destination = told.destination();
            self.keep_route(source, &destination, told);
        }
    }

    // Keeps a route to this destination.
    fn keep_route(&mut self, source: &Ipv6Address, destination: &Ipv6Address, told: &Route<'_>) {
        keep_route(&mut self.routes, source, destination, told);
    }
}

// Takes what the octets of an advertisement tell of the router.
fn learn_router(
    routers: &mut ArrayVec<DefaultRouter, MOST_ROUTERS>,
    source: &Ipv6Address,
    octets: &[u8],
) {
    let lifetime = octet(octets, 6) as u32 * 256 + octet(octets, 7) as u32;
    keep_router(routers, source, kept_preference(octet(octets, 5)), lifetime);
}

// Keeps a default router for so many seconds, or with 0 removes it.
fn keep_router(
    routers: &mut ArrayVec<DefaultRouter, MOST_ROUTERS>,
    address: &Ipv6Address,
    preference: Preference,
    lifetime: u32,
) {
    if lifetime == 0 {
        remove(routers, address);
        return;
    }
    let _kept = renew(
        routers,
        address,
        DefaultRouter {
            address: *address,
            preference,
            lifetime,
        },
    );
}

// Keeps a route to this destination for as long as an option says, or removes it.
fn keep_route(
    routes: &mut ArrayVec<RouteEntry, MOST_ROUTES>,
    source: &Ipv6Address,
    destination: &Ipv6Address,
    told: &Route<'_>,
) {
    let key = RouteKey {
        router: *source,
        prefix_len: told.prefix_len,
        prefix: *destination,
    };
    if told.lifetime == 0 {
        remove(routes, &key);
        return;
    }
    let _kept = renew(
        routes,
        &key,
        RouteEntry {
            router: *source,
            prefix_len: told.prefix_len,
            prefix: *destination,
            preference: told.preference,
            lifetime: Lifetime::of(told.lifetime),
        },
    );
}

// The octet at a place, or zero behind the last.
fn octet(octets: &[u8], place: usize) -> u8 {
    match octets.get(place) {
        Some(octet) => *octet,
        None => 0,
    }
}

// The preference of a router whose advertisement has these flags.
fn kept_preference(flags: u8) -> Preference {
    match router_preference(flags) {
        Preference::Reserved => Preference::Medium,
        preference => preference,
    }
}

// Takes what an option tells of a prefix.
fn learn_prefix(prefixes: &mut ArrayVec<OnLinkPrefix, MOST_PREFIXES>, told: &Prefix) {
    if !told.on_link || told.prefix.is_link_local() {
        return;
    }
    let key = PrefixKey {
        prefix_len: told.prefix_len,
        prefix: told.prefix,
    };
    if told.valid_lifetime == 0 {
        remove(prefixes, &key);
        return;
    }
    let _kept = renew(
        prefixes,
        &key,
        OnLinkPrefix {
            prefix_len: told.prefix_len,
            prefix: told.prefix,
            autonomous: told.autonomous,
            valid: Lifetime::of(told.valid_lifetime),
            preferred: Lifetime::of(told.preferred_lifetime),
        },
    );
}

// Takes what an option tells of recursive DNS servers.
fn learn_servers(
    servers: &mut ArrayVec<DnsServer, MOST_SERVERS>,
    lifetime: u32,
    addresses: Servers<'_>,
) {
    for address in addresses.iter() {
        learn_server(servers, lifetime, &address);
    }
}

// Takes what an option tells of one of them.
fn learn_server(
    servers: &mut ArrayVec<DnsServer, MOST_SERVERS>,
    lifetime: u32,
    address: &Ipv6Address,
) {
    if lifetime == 0 {
        remove(servers, address);
        return;
    }
    let _kept = renew(
        servers,
        address,
        DnsServer {
            address: *address,
            lifetime: Lifetime::of(lifetime),
        },
    );
}

// Whether one of the prefixes is that of an address.
fn is_on_link(prefixes: &[OnLinkPrefix], address: &Ipv6Address) -> bool {
    for prefix in prefixes {
        if is_within(address, &prefix.prefix, prefix.prefix_len) {
            return true;
        }
    }
    false
}
