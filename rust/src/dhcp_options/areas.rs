// Made from crates/dhcp_options/src/areas.rt by rust/erase.
//! The areas of a packet, with the octets that are still to be read.

use crate::dhcp_options::front::{Placed, next_in};
use crate::dhcp_options::overload::Overload;
use crate::dhcp_options::parts::{Area, Refusal};
use core::result;

// The fields that hold options (RFC 2131 section 2); their table is in specs/Areas.antt.
mod field {
    pub const SNAME: usize = 44;

    pub const FILE: usize = 108;

    pub const MAGIC_NUMBER: usize = 236;

    pub const OPTIONS: usize = 240;
}

// The octets that are still to be read in each area; none in an area that holds no options.
#[derive(Debug, Clone, Copy)]
pub(crate) struct Areas<'a> {
    pub(crate) options: &'a [u8],
    pub(crate) file: &'a [u8],
    pub(crate) sname: &'a [u8],
}

impl<'a> Areas<'a> {
    // The areas of a packet with this overload.
    pub(crate) fn new(octets: &'a [u8], overload: Option<Overload>) -> Areas<'a> {
        Areas {
            options: &octets[field::OPTIONS..],
            file: file_of(octets, overload),
            sname: sname_of(octets, overload),
        }
    }

    // The next option, or the refusal of an option that is cut, which ends its area.
    pub(crate) fn next_answer(&mut self) -> Option<result::Result<Placed<'a>, Refusal>> {
        let (answer, rest) = next_in(Area::Options, self.options);
        self.options = rest;
        if let Some(answer) = answer {
            return Some(answer);
        }
        let (answer, rest) = next_in(Area::File, self.file);
        self.file = rest;
        if let Some(answer) = answer {
            return Some(answer);
        }
        let (answer, rest) = next_in(Area::Sname, self.sname);
        self.sname = rest;
        answer
    }
}

// The octets of `file`; none where it holds no options.
fn file_of(octets: &[u8], overload: Option<Overload>) -> &[u8] {
    match overload {
        Some(Overload::File | Overload::FileAndSname) => &octets[field::FILE..field::MAGIC_NUMBER],
        Some(Overload::Sname) | None => &[],
    }
}

// The octets of `sname`; none where it holds no options.
fn sname_of(octets: &[u8], overload: Option<Overload>) -> &[u8] {
    match overload {
        Some(Overload::Sname | Overload::FileAndSname) => &octets[field::SNAME..field::FILE],
        Some(Overload::File) | None => &[],
    }
}
