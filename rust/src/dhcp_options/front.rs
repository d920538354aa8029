// Made from crates/dhcp_options/src/front.rt by rust/erase.
//! What the octets of an area begin with.

use crate::dhcp_options::parts::{Area, Refusal};
use crate::dhcp_wire::dhcpv4::{DhcpOption, OPT_END, OPT_PAD};
use core::result;

// An option, and the area in which it stands.
#[derive(Clone, Copy)]
pub(crate) struct Placed<'a> {
    pub(crate) area: Area,
    pub(crate) option: DhcpOption<'a>,
}

// What stands behind the padding that octets begin with.
#[derive(Clone, Copy)]
enum Front<'a> {
    // An option, and the octets after it.
    Whole(DhcpOption<'a>, &'a [u8]),
    // An option of this kind that is cut: the octets end before its length or within its data.
    Cut(u8),
    // The end mark, or the end of the octets.
    End,
}

// What the octets of an area give first, and the octets after that.
pub(crate) fn next_in(
    area: Area,
    octets: &[u8],
) -> (Option<result::Result<Placed<'_>, Refusal>>, &[u8]) {
    match read_front(octets) {
        Front::Whole(option, rest) => (Some(Ok(Placed { area, option })), rest),
        Front::Cut(kind) => (Some(Err(Refusal { area, kind })), &[]),
        Front::End => (None, &[]),
    }
}

// What octets begin with.
fn read_front(octets: &[u8]) -> Front<'_> {
    let Some((kind, behind)) = past_padding(octets).split_first() else {
        return Front::End;
    };
    if *kind == OPT_END {
        return Front::End;
    }
    let Some((count, body)) = behind.split_first() else {
        return Front::Cut(*kind);
    };
    let Some((data, rest)) = body.split_at_checked(*count as usize) else {
        return Front::Cut(*kind);
    };
    Front::Whole(DhcpOption { kind: *kind, data }, rest)
}

// The octets from the first one on that isn't padding.
fn past_padding(octets: &[u8]) -> &[u8] {
    for (i, kind) in octets.iter().enumerate() {
        if *kind != OPT_PAD {
            return &octets[i..];
        }
    }
    &[]
}
