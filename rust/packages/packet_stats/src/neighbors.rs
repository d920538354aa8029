// Made from crates/packet_stats/src/neighbors.rt by rust/erase.
//! Messages of neighbor discovery (RFC 4861 section 4).

use crate::stats::Stats;
use crate::subject::Subject;
use crate::table::Fault;
use control_wire::{Ipv6Address, Octets};
use neighbor_fields::ndisc::header_len;
use neighbor_fields::ndisc::options::Options;
use packet_fields::parts::Part;
use packet_fields::texts::v6_of;

// The types of messages.
const ROUTER_SOLICITATION: u8 = 133;

const ROUTER_ADVERTISEMENT: u8 = 134;

const NEIGHBOR_SOLICITATION: u8 = 135;

const NEIGHBOR_ADVERTISEMENT: u8 = 136;

// The types of options.
const SOURCE_LINK_ADDRESS: u8 = 1;

const TARGET_LINK_ADDRESS: u8 = 2;

const PREFIX_INFORMATION: u8 = 3;

// The octets of a unit, and how many units the options have.
const UNIT: usize = 8;

const LINK_ADDRESS_UNITS: u8 = 1;

const PREFIX_UNITS: u8 = 4;

// The bits of an address.
const MOST_PREFIX: u8 = 128;

// The fields of messages and of options (RFC 4861 sections 4.4 and 4.6).
mod place {
    use control_wire::Field;

    pub const TYPE: usize = 0;

    pub const LENGTH: usize = 1;

    pub const TARGET_ADDR: Field = 8..24;

    pub const LINK_ADDRESS: Field = 2..8;

    pub const PREFIX_LEN: Field = 2..3;

    pub const PREFIX: Field = 16..32;
}

impl Stats {
    // Counts what a message from an address says.
    pub(crate) fn count_neighbors(
        &mut self,
        source: Ipv6Address,
        octets: &[u8],
    ) -> Result<(), Fault> {
        if octets.is_empty() || octets.len() < header_len(octets[place::TYPE]) {
            return Ok(());
        }
        let (_, options) = octets.split_at(header_len(octets[place::TYPE]));
        self.count_fields(source, octets, options)
    }

    // Counts what a message says whose fields are there.
    fn count_fields(
        &mut self,
        source: Ipv6Address,
        octets: &[u8],
        options: &[u8],
    ) -> Result<(), Fault> {
        match octets[place::TYPE] {
            ROUTER_ADVERTISEMENT => self.count_router(source, options),
            NEIGHBOR_ADVERTISEMENT => {
                let target = v6_of(octets.field(place::TARGET_ADDR));
                self.count_neighbor(TARGET_LINK_ADDRESS, target, options)
            }
            ROUTER_SOLICITATION | NEIGHBOR_SOLICITATION => self.count_source(source, options),
            _ => Ok(()),
        }
    }

    // Counts a router, and what its options say.
    fn count_router(&mut self, source: Ipv6Address, options: &[u8]) -> Result<(), Fault> {
        self.count_subject(Subject::Router(source))?;
        self.count_source(source, options)?;
        self.count_prefixes(source, options)
    }

    // Counts the neighbor that a message comes from.
    fn count_source(&mut self, source: Ipv6Address, options: &[u8]) -> Result<(), Fault> {
        if is_unspecified(&source.octets()) {
            return Ok(());
        }
        self.count_neighbor(SOURCE_LINK_ADDRESS, source, options)
    }

    // Counts the neighbor at an address, where an option of this type tells its link-layer address.
    fn count_neighbor(
        &mut self,
        type_: u8,
        address: Ipv6Address,
        options: &[u8],
    ) -> Result<(), Fault> {
        match first_option(type_, LINK_ADDRESS_UNITS, options) {
            Some(option) => self.count_subject(Subject::Neighbor(address, link_of(option))),
            None => Ok(()),
        }
    }

    // Counts the prefixes of a router.
    fn count_prefixes(&mut self, source: Ipv6Address, options: &[u8]) -> Result<(), Fault> {
        let mut left = options;
        while !left.is_empty() {
            let (option, others) = left.split_at(Options::len_of(left));
            self.count_prefix(source, option)?;
            left = others;
        }
        Ok(())
    }

    // Counts the prefix in an option, where it has one.
    fn count_prefix(&mut self, source: Ipv6Address, option: &[u8]) -> Result<(), Fault> {
        if has_prefix(option) {
            let prefix = v6_of(option.field(place::PREFIX));
            let len = option.u8_at(place::PREFIX_LEN);
            return self.count_subject(Subject::Prefix(prefix, len, source));
        }
        Ok(())
    }
}

// Whether an option has a prefix (RFC 4861 section 4.6.2), of at most the bits of an address.
fn has_prefix(option: &[u8]) -> bool {
    is_of(PREFIX_INFORMATION, PREFIX_UNITS, option)
        && option.u8_at(place::PREFIX_LEN) <= MOST_PREFIX
}

// Whether these octets of an address are all 0.
fn is_unspecified(address: &[u8]) -> bool {
    address.iter().all(|octet| *octet == 0)
}

// The link-layer address of 6 octets in an option.
fn link_of(option: &[u8]) -> [u8; 6] {
    option.field(place::LINK_ADDRESS).try_into().unwrap()
}

// The first option of this type and of so many units among these.
fn first_option(type_: u8, units: u8, options: &[u8]) -> Option<&[u8]> {
    let mut left = options;
    while !left.is_empty() {
        let (option, others) = left.split_at(Options::len_of(left));
        if is_of(type_, units, option) {
            return Some(option);
        }
        left = others;
    }
    None
}

// Whether an option has this type, and the octets of so many units, which it counts.
fn is_of(type_: u8, units: u8, option: &[u8]) -> bool {
    option.len() == UNIT * units as usize
        && option[place::TYPE] == type_
        && option[place::LENGTH] == units
}
