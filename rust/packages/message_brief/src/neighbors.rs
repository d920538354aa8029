// Made from crates/message_brief/src/neighbors.rt by rust/erase.
//! Brief lines of neighbor discovery (RFC 4861 section 4).

use crate::icmp::put_head6;
use crate::words::{put_more, put_word};
use control_wire::Octets;
use control_wire::inside::text::{Sink, put_number};
use neighbor_fields::ndisc::header_len;
use neighbor_fields::ndisc::options::{Options, Prefix, refusal};
use packet_fields::parts::Part;
use packet_fields::texts::Address;
use packet_fields::value::{Colons, Text};

const ROUTER_ADVERTISEMENT: u8 = 134;

const NEIGHBOR_SOLICITATION: u8 = 135;

const NEIGHBOR_ADVERTISEMENT: u8 = 136;

const REDIRECT: u8 = 137;

const TARGET_LINK_LAYER_ADDRESS: u8 = 2;

const PREFIX_INFORMATION: u8 = 3;

// The fields of messages and of options (RFC 4861 sections 4.2 to 4.6).
mod place {
    use control_wire::Field;

    pub const TYPE: usize = 0;

    pub const CODE: usize = 1;

    pub const HEAD_LEN: usize = 4;

    pub const ROUTER_LIFETIME: Field = 6..8;

    pub const TARGET_ADDR: Field = 8..24;

    pub const DEST_ADDR: Field = 24..40;

    pub const ROUTER_OPTIONS: usize = 16;

    pub const NEIGHBOR_OPTIONS: usize = 24;

    pub const LINK_ADDRESS: usize = 2;

    pub const PREFIX_LEN: Field = 2..3;

    pub const PREFIX: Field = 16..32;
}

/// Puts what a message of neighbor discovery says.
pub(crate) fn put_neighbors<O, S: Sink<O>>(output: &mut O, octets: &[u8]) -> Result<(), S::Error> {
    if octets.len() < place::HEAD_LEN {
        return Ok(());
    }
    put_head6::<O, S>(output, octets[place::TYPE], octets[place::CODE])?;
    put_behind::<O, S>(output, octets)
}

/// Whether the fields of a message are there, and no option is refused.
pub(crate) fn is_whole(octets: &[u8]) -> bool {
    if octets.len() < place::HEAD_LEN {
        return false;
    }
    let header_len = header_len(octets[place::TYPE]);
    if octets.len() < header_len {
        return false;
    }
    let (_, options) = octets.split_at(header_len);
    are_whole(options)
}

fn put_behind<O, S: Sink<O>>(output: &mut O, octets: &[u8]) -> Result<(), S::Error> {
    if octets.len() < header_len(octets[place::TYPE]) {
        return Ok(());
    }
    put_fields::<O, S>(output, octets)
}

fn put_fields<O, S: Sink<O>>(output: &mut O, octets: &[u8]) -> Result<(), S::Error> {
    match octets[place::TYPE] {
        ROUTER_ADVERTISEMENT => put_router::<O, S>(output, octets),
        NEIGHBOR_SOLICITATION => put_target::<O, S>(output, octets),
        NEIGHBOR_ADVERTISEMENT => put_neighbor::<O, S>(output, octets),
        REDIRECT => put_redirect::<O, S>(output, octets),
        _ => Ok(()),
    }
}

// Puts the lifetime of a router, and its prefixes.
fn put_router<O, S: Sink<O>>(output: &mut O, octets: &[u8]) -> Result<(), S::Error> {
    let (_, options) = octets.split_at(place::ROUTER_OPTIONS);
    let prefix = first_option(PREFIX_INFORMATION, options);
    let count = count_options(PREFIX_INFORMATION, options);
    put_word::<O, S, Lifetime>(output, Lifetime(octets.u16_at(place::ROUTER_LIFETIME)))?;
    put_prefixes::<O, S>(output, prefix, count)
}

// Seconds with their unit.
#[derive(Clone, Copy)]
struct Lifetime(u16);

impl Text for Lifetime {
    fn put_into<O, S: Sink<O>>(self, output: &mut O) -> Result<(), S::Error> {
        put_number::<O, S>(output, self.0 as u64)?;
        S::put_str(output, "s")
    }
}

// Puts the first of so many prefixes.
fn put_prefixes<O, S: Sink<O>>(
    output: &mut O,
    option: Option<&[u8]>,
    count: usize,
) -> Result<(), S::Error> {
    match option {
        Some(octets) => {
            put_prefix::<O, S>(output, octets)?;
            put_more::<O, S>(output, count.saturating_sub(1) as u64)
        }
        None => Ok(()),
    }
}

fn put_prefix<O, S: Sink<O>>(output: &mut O, octets: &[u8]) -> Result<(), S::Error> {
    let prefix = Prefix {
        address: Address(octets.field(place::PREFIX)),
        len: octets.u8_at(place::PREFIX_LEN),
    };
    put_word::<O, S, Prefix<'_>>(output, prefix)
}

// Puts the target.
fn put_target<O, S: Sink<O>>(output: &mut O, octets: &[u8]) -> Result<(), S::Error> {
    put_word::<O, S, Address<'_>>(output, Address(octets.field(place::TARGET_ADDR)))
}

// Puts the target, and its link-layer address where that is told.
fn put_neighbor<O, S: Sink<O>>(output: &mut O, octets: &[u8]) -> Result<(), S::Error> {
    let (_, options) = octets.split_at(place::NEIGHBOR_OPTIONS);
    let option = first_option(TARGET_LINK_LAYER_ADDRESS, options);
    put_target::<O, S>(output, octets)?;
    put_link::<O, S>(output, option)
}

fn put_link<O, S: Sink<O>>(output: &mut O, option: Option<&[u8]>) -> Result<(), S::Error> {
    match option {
        Some(octets) => {
            let (_, address) = octets.split_at(place::LINK_ADDRESS);
            S::put_str(output, " = ")?;
            Colons(address).put_into::<O, S>(output)
        }
        None => Ok(()),
    }
}

// Puts a destination, and the target that is the better way to it.
fn put_redirect<O, S: Sink<O>>(output: &mut O, octets: &[u8]) -> Result<(), S::Error> {
    put_word::<O, S, Address<'_>>(output, Address(octets.field(place::DEST_ADDR)))?;
    S::put_str(output, " via")?;
    put_target::<O, S>(output, octets)
}

// The first option of a type among these, but for those that are refused.
fn first_option(type_: u8, octets: &[u8]) -> Option<&[u8]> {
    let mut left = octets;
    while !left.is_empty() {
        let (option, others) = left.split_at(Options::len_of(left));
        if is_of(type_, option) {
            return Some(option);
        }
        left = others;
    }
    None
}

// How many options of a type are among these, but for those that are refused.
fn count_options(type_: u8, octets: &[u8]) -> usize {
    let mut left = octets;
    let mut count = 0;
    while !left.is_empty() {
        let (option, others) = left.split_at(Options::len_of(left));
        left = others;
        if is_of(type_, option) {
            count += 1;
        }
    }
    count
}

// Whether none of these options is refused.
fn are_whole(octets: &[u8]) -> bool {
    let mut left = octets;
    while !left.is_empty() {
        let (option, others) = left.split_at(Options::len_of(left));
        if !is_whole_option(option) {
            return false;
        }
        left = others;
    }
    true
}

// Whether an option has this type, and is not refused.
fn is_of(type_: u8, option: &[u8]) -> bool {
    is_whole_option(option) && option[place::TYPE] == type_
}

fn is_whole_option(option: &[u8]) -> bool {
    refusal(option).is_none()
}
