// Made from crates/header_wire/src/ipv4/display.rt by rust/erase.
//! What headers and their refusals print.

use super::{Header, Refusal};
use core::fmt;

// The way of a packet: the addresses, and the fields that routers look at.
#[derive(Clone, Copy)]
struct Way<'a> {
    header: Header<'a>,
}

impl fmt::Display for Way<'_> {
    fn fmt(&self, f: &mut fmt::Formatter<'_>) -> fmt::Result {
        let from = self.header.src_addr;
        let to = self.header.dst_addr;
        let protocol = self.header.protocol;
        let service = self.header.service;
        let hops = self.header.hop_limit;
        write!(
            f,
            "{from} > {to} protocol={protocol} service={service} hop_limit={hops}"
        )
    }
}

// What a packet has: its fragments and its lengths.
#[derive(Clone, Copy)]
struct Extent<'a> {
    header: Header<'a>,
}

impl fmt::Display for Extent<'_> {
    fn fmt(&self, f: &mut fmt::Formatter<'_>) -> fmt::Result {
        let ident = self.header.ident;
        let dont_frag = self.header.dont_frag;
        let more_frags = self.header.more_frags;
        let offset = self.header.frag_offset;
        let options = self.header.options.len();
        let len = self.header.payload_len;
        write!(
            f,
            "ident={ident} dont_frag={dont_frag} more_frags={more_frags} offset={offset} options={options} len={len}"
        )
    }
}

/// The addresses, and the other fields by their names, with the numbers of bytes of the options and of the payload.
impl fmt::Display for Header<'_> {
    fn fmt(&self, f: &mut fmt::Formatter<'_>) -> fmt::Result {
        let way = Way { header: *self };
        let extent = Extent { header: *self };
        write!(f, "{way} {extent}")
    }
}

/// The reason, as a phrase.
impl fmt::Display for Refusal {
    fn fmt(&self, f: &mut fmt::Formatter<'_>) -> fmt::Result {
        match self {
            Refusal::Short => write!(f, "fewer than 20 bytes"),
            Refusal::Version(version) => write!(f, "version {version} is not read"),
            Refusal::HeaderLen(len) => write!(f, "a header length of {len} is below 20"),
            Refusal::HeaderCut(len) => write!(f, "fewer than the {len} bytes of the header"),
            Refusal::TotalLen(len) => {
                write!(f, "a total length of {len} is below that of the header")
            }
            Refusal::Cut(len) => write!(f, "fewer than the {len} bytes of the packet"),
            Refusal::Checksum => write!(f, "the checksum does not hold"),
        }
    }
}
