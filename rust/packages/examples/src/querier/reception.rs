// Made from crates/examples/src/querier/reception.rt by rust/erase.
//! What some host of a link wants: an entry of the list of a querier.

use crate::timed_list::Entry;
use control_wire::groups::{Address, Sources};
use control_wire::{Ipv4Address, Ipv6Address};

/// An address of a group, of a source, or of a router. Of routers on a link, that with the lowest address asks (RFC
/// 3376 section 6.6.2, RFC 3810 section 7.6.2).
pub trait RouterAddress: Address + PartialEq {
    /// Whether it is below another.
    fn is_below(&self, other: &Self) -> bool;

    /// The address `0.0.0.0` or `::`.
    fn unspecified() -> Self;

    /// Whether it is that address.
    fn is_unspecified(&self) -> bool;

    /// Writes the address over the front of the octets, and gives it as the source of a query. Requires as many as an
    /// address has.
    fn as_source<'a>(&self, octets: &'a mut [u8]) -> Sources<'a, Self>;
}

impl RouterAddress for Ipv4Address {
    fn is_below(&self, other: &Ipv4Address) -> bool {
        u32::from_be_bytes(self.octets()) < u32::from_be_bytes(other.octets())
    }

    fn unspecified() -> Ipv4Address {
        Ipv4Address::UNSPECIFIED
    }

    fn is_unspecified(&self) -> bool {
        Ipv4Address::is_unspecified(self)
    }

    fn as_source<'a>(&self, octets: &'a mut [u8]) -> Sources<'a, Ipv4Address> {
        match Sources::write(&[*self], octets) {
            Some(sources) => sources,
            None => Sources::none(),
        }
    }
}

impl RouterAddress for Ipv6Address {
    fn is_below(&self, other: &Ipv6Address) -> bool {
        u128::from_be_bytes(self.octets()) < u128::from_be_bytes(other.octets())
    }

    fn unspecified() -> Ipv6Address {
        Ipv6Address::UNSPECIFIED
    }

    fn is_unspecified(&self) -> bool {
        Ipv6Address::is_unspecified(self)
    }

    fn as_source<'a>(&self, octets: &'a mut [u8]) -> Sources<'a, Ipv6Address> {
        match Sources::write(&[*self], octets) {
            Some(sources) => sources,
            None => Sources::none(),
        }
    }
}

/// What some host of the link wants: a group, from this source or from all (RFC 3376 section 6.2). Times are in
/// milliseconds.
#[derive(Debug, PartialEq, Eq, Clone, Copy)]
pub struct Reception<A> {
    /// The group.
    pub group: A,
    /// The source. None for all sources.
    pub source: Option<A>,
    /// How long it still counts: the source timer, or the group timer.
    pub left: u64,
    /// How long a host of version 1 of IGMP still counts, which leaves without a message: as long no other one is
    /// asked whether it is there (RFC 3376 section 7.3.2).
    pub oldest: u64,
    /// How many queries about it are left.
    pub queries: u8,
    /// The time until the next of them.
    pub next: u64,
}

/// What tells receptions apart.
#[derive(Debug, PartialEq, Eq, Clone, Copy)]
pub struct ReceptionKey<A> {
    /// The group.
    pub group: A,
    /// The source. None for all sources.
    pub source: Option<A>,
}

// Which receptions are meant: all of a group, or one.
#[derive(Debug, PartialEq, Eq, Clone, Copy)]
pub(crate) enum Meant<A> {
    Group(A),
    One(ReceptionKey<A>),
}

impl<A: RouterAddress> Default for Reception<A> {
    fn default() -> Reception<A> {
        Reception {
            group: A::unspecified(),
            source: None,
            left: 0,
            oldest: 0,
            queries: 0,
            next: 0,
        }
    }
}

impl<A: RouterAddress> Entry for Reception<A> {
    type Key = ReceptionKey<A>;

    fn is_of(&self, key: &ReceptionKey<A>) -> bool {
        self.group == key.group && is_same(&self.source, &key.source)
    }

    fn after(&self, passed: u32) -> Option<Reception<A>> {
        let passed = passed as u64;
        if passed >= self.left {
            return None;
        }
        Some(Reception {
            left: self.left - passed,
            oldest: self.oldest.saturating_sub(passed),
            next: self.next.saturating_sub(passed),
            ..*self
        })
    }
}

// Whether two sources are the same.
fn is_same<A: PartialEq>(a: &Option<A>, b: &Option<A>) -> bool {
    match (a, b) {
        (Some(a), Some(b)) => a == b,
        (None, None) => true,
        _ => false,
    }
}

impl<A: RouterAddress> Reception<A> {
    /// What it is about.
    pub fn key(&self) -> ReceptionKey<A> {
        ReceptionKey {
            group: self.group,
            source: self.source,
        }
    }

    // Whether it is meant.
    fn is_meant(&self, meant: &Meant<A>) -> bool {
        match meant {
            Meant::Group(group) => self.group == *group,
            Meant::One(key) => self.is_of(key),
        }
    }

    // The reception where a host leaves what is meant: it counts for no longer than this, and is asked about so often.
    pub(crate) fn lowered(&self, meant: &Meant<A>, limit: u64, queries: u8) -> Reception<A> {
        if self.is_meant(meant) && self.left > limit && self.oldest == 0 {
            Reception {
                left: limit,
                queries,
                next: 0,
                ..*self
            }
        } else {
            *self
        }
    }
}

// The reception that a host tells, with what was known of it.
pub(crate) fn received<A: Copy>(
    key: &ReceptionKey<A>,
    time: u64,
    oldest: u64,
    before: Option<Reception<A>>,
) -> Reception<A> {
    Reception {
        group: key.group,
        source: key.source,
        left: time,
        oldest: oldest_of(before).max(oldest),
        queries: 0,
        next: 0,
    }
}

// How long a host of version 1 of IGMP counts.
fn oldest_of<A: Copy>(known: Option<Reception<A>>) -> u64 {
    match known {
        Some(reception) => reception.oldest,
        None => 0,
    }
}

// The first of these that is to be asked about now.
pub(crate) fn next_due<A: Copy>(receptions: &[Reception<A>]) -> Option<Reception<A>> {
    for reception in receptions {
        if reception.next == 0 && reception.queries > 0 {
            return Some(*reception);
        }
    }
    None
}

// The reception that was asked about once more, and may be so again in this time.
pub(crate) fn asked<A: Copy>(reception: &Reception<A>, interval: u64) -> Reception<A> {
    Reception {
        queries: reception.queries.saturating_sub(1),
        next: interval,
        ..*reception
    }
}
