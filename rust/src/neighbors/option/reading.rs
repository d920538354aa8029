// Made from crates/neighbor_wire/src/option/reading.rt by rust/erase.
//! Options read from octets.

use super::{NeighborOption, UNIT, UNITS, field};
use crate::neighbors::kind::Kind;
use crate::neighbors::names::Names;
use crate::neighbors::nat64::{Nat64Length, Nat64Prefix};
use crate::neighbors::preference::router_preference;
use crate::neighbors::prefix::Prefix;
use crate::neighbors::refusal::Refusal;
use crate::neighbors::route::Route;
use crate::neighbors::servers::Servers;
use crate::wirebase::{Ipv6Address, Octets};

// The option that these octets are.
pub(super) fn read(octets: &[u8]) -> Result<NeighborOption<'_>, Refusal> {
    if octets.len() < UNIT {
        return Err(Refusal::Short);
    }
    let units = octets.u8_at(UNITS);
    if units == 0 {
        return Err(Refusal::Zero);
    }
    let len = UNIT * units as usize;
    if octets.len() != len {
        return Err(Refusal::Counted(len));
    }
    read_content(octets)
}

// What the octets of an option say, which are whole units.
fn read_content(octets: &[u8]) -> Result<NeighborOption<'_>, Refusal> {
    let number = octets.u8_at(field::KIND);
    match Kind::of(number) {
        Kind::Source => Ok(NeighborOption::SourceLinkLayerAddress(data_in(octets))),
        Kind::Target => Ok(NeighborOption::TargetLinkLayerAddress(data_in(octets))),
        Kind::Prefix => read_prefix(octets),
        Kind::Mtu => read_mtu(octets),
        Kind::Nonce => Ok(NeighborOption::Nonce(data_in(octets))),
        Kind::Route => read_route(octets),
        Kind::DnsServers => read_servers(octets),
        Kind::SearchList => read_search_list(octets),
        Kind::CaptivePortal => Ok(NeighborOption::CaptivePortal(without_zeros(data_in(
            octets,
        )))),
        Kind::Nat64Prefix => read_nat64(octets),
        Kind::Other => Ok(NeighborOption::Other {
            kind: number,
            data: data_in(octets),
        }),
    }
}

// The octets behind type and length.
fn data_in(octets: &[u8]) -> &[u8] {
    &octets[field::DATA..]
}

// The octets without the zeros at their end.
pub(crate) fn without_zeros(octets: &[u8]) -> &[u8] {
    let mut end = octets.len();
    while end > 0 && octets[end - 1] == 0 {
        end -= 1;
    }
    &octets[..end]
}

// What the octets of a prefix say.
fn read_prefix(octets: &[u8]) -> Result<NeighborOption<'_>, Refusal> {
    let units = octets.u8_at(UNITS);
    if units != 4 {
        return Err(Refusal::Units(3, units));
    }
    let prefix_len = octets.u8_at(field::PREFIX_LEN);
    if prefix_len > 128 {
        return Err(Refusal::PrefixLength(prefix_len));
    }
    let flags = octets.u8_at(field::FLAGS);
    Ok(NeighborOption::Prefix(Prefix {
        prefix_len,
        on_link: flags / 128 % 2 == 1,
        autonomous: flags / 64 % 2 == 1,
        router_address: flags / 32 % 2 == 1,
        valid_lifetime: octets.u32_at(field::LIFETIME),
        preferred_lifetime: octets.u32_at(field::PREFERRED_LIFETIME),
        prefix: Ipv6Address::from_octets(octets.field(field::PREFIX).try_into().unwrap()),
    }))
}

// What the octets of an MTU say.
fn read_mtu(octets: &[u8]) -> Result<NeighborOption<'_>, Refusal> {
    let units = octets.u8_at(UNITS);
    if units != 1 {
        return Err(Refusal::Units(5, units));
    }
    Ok(NeighborOption::Mtu(octets.u32_at(field::MTU)))
}

// What the octets of a route say.
fn read_route(octets: &[u8]) -> Result<NeighborOption<'_>, Refusal> {
    let units = octets.u8_at(UNITS);
    if units > 3 {
        return Err(Refusal::Units(24, units));
    }
    let prefix_len = octets.u8_at(field::PREFIX_LEN);
    if prefix_len > 64 * (units - 1) {
        return Err(Refusal::PrefixLength(prefix_len));
    }
    Ok(NeighborOption::Route(Route {
        prefix_len,
        preference: router_preference(octets.u8_at(field::FLAGS)),
        lifetime: octets.u32_at(field::LIFETIME),
        prefix: &octets[field::BEHIND_LIFETIME..],
    }))
}

// What the octets of DNS servers say.
fn read_servers(octets: &[u8]) -> Result<NeighborOption<'_>, Refusal> {
    let units = octets.u8_at(UNITS);
    if units < 3 || units % 2 == 0 {
        return Err(Refusal::Units(25, units));
    }
    Ok(NeighborOption::DnsServers {
        lifetime: octets.u32_at(field::LIFETIME),
        servers: Servers::new(&octets[field::BEHIND_LIFETIME..]),
    })
}

// What the octets of a search list say.
fn read_search_list(octets: &[u8]) -> Result<NeighborOption<'_>, Refusal> {
    let units = octets.u8_at(UNITS);
    if units < 2 {
        return Err(Refusal::Units(31, units));
    }
    Ok(NeighborOption::SearchList {
        lifetime: octets.u32_at(field::LIFETIME),
        names: Names::new(&octets[field::BEHIND_LIFETIME..]),
    })
}

// What the octets of a NAT64 prefix say.
fn read_nat64(octets: &[u8]) -> Result<NeighborOption<'_>, Refusal> {
    let units = octets.u8_at(UNITS);
    if units != 2 {
        return Err(Refusal::Units(38, units));
    }
    let scaled = octets.u16_at(field::SCALED_LIFETIME);
    let code = (scaled % 8) as u8;
    match Nat64Length::of(code) {
        Some(length) => Ok(NeighborOption::Nat64Prefix(Nat64Prefix {
            scaled_lifetime: scaled / 8,
            length,
            prefix: &octets[field::NAT64_PREFIX..],
        })),
        None => Err(Refusal::LengthCode(code)),
    }
}
