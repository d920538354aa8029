// Made from crates/frame_wire/src/datagram/display.rt by rust/erase.
//! What datagrams, their parts and their refusals print.

use super::{Addresses, Captured, Datagram, Extent, Head, Refusal};
use core::fmt;

/// The source and the destination, as `192.0.2.1 > 192.0.2.2`.
impl fmt::Display for Addresses {
    fn fmt(&self, f: &mut fmt::Formatter<'_>) -> fmt::Result {
        match self {
            Addresses::V4(src_addr, dst_addr) => write!(f, "{src_addr} > {dst_addr}"),
            Addresses::V6(src_addr, dst_addr) => write!(f, "{src_addr} > {dst_addr}"),
        }
    }
}

/// The fields of a fragment are printed only where there is an identification.
impl fmt::Display for Head {
    fn fmt(&self, f: &mut fmt::Formatter<'_>) -> fmt::Result {
        let addresses = self.addresses;
        let protocol = self.protocol;
        let offset = self.frag_offset;
        let more = self.more_frags;
        match self.ident {
            Some(ident) => write!(
                f,
                "{addresses} protocol={protocol} ident={ident} frag_offset={offset} more_frags={more}"
            ),
            None => write!(f, "{addresses} protocol={protocol}"),
        }
    }
}

/// The reason, as a phrase.
impl fmt::Display for Refusal {
    fn fmt(&self, f: &mut fmt::Formatter<'_>) -> fmt::Result {
        match self {
            Refusal::Short => write!(f, "fewer bytes than the fixed header has"),
            Refusal::Version(version) => write!(f, "version {version} is not read"),
            Refusal::HeaderLen(len) => write!(f, "a header length of {len} is below 20"),
            Refusal::TotalLen(len) => {
                write!(f, "a total length of {len} is below that of the header")
            }
            Refusal::Cut(head) => write!(f, "cut short, {head}"),
            Refusal::Jumbogram => write!(f, "a malformed jumbogram"),
            Refusal::Extension(protocol) => {
                write!(f, "the extension header {protocol} is cut short")
            }
            Refusal::Fragment(head) => write!(f, "a fragment, {head}"),
        }
    }
}

/// The addresses, the protocol, the hop limit, and the number of bytes of the payload.
impl fmt::Display for Datagram<'_> {
    fn fmt(&self, f: &mut fmt::Formatter<'_>) -> fmt::Result {
        let addresses = self.addresses;
        let protocol = self.protocol;
        let hop_limit = self.hop_limit;
        let len = self.payload.len();
        write!(
            f,
            "{addresses} protocol={protocol} hop_limit={hop_limit} len={len}"
        )
    }
}

/// How much was captured.
impl fmt::Display for Extent {
    fn fmt(&self, f: &mut fmt::Formatter<'_>) -> fmt::Result {
        match self {
            Extent::Whole => write!(f, "whole"),
            Extent::Cut { missing } => write!(f, "cut missing={missing}"),
            Extent::Unstated => write!(f, "of no stated length"),
        }
    }
}

/// The datagram, and how much of it was captured.
impl fmt::Display for Captured<'_> {
    fn fmt(&self, f: &mut fmt::Formatter<'_>) -> fmt::Result {
        let datagram = &self.datagram;
        let extent = self.extent;
        write!(f, "{datagram} {extent}")
    }
}
