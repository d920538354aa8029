// Made from crates/neighbor_wire/src/display.rt by rust/erase.
//! Options printed, each in one line.

use crate::neighbors::option::NeighborOption;
use crate::wirebase::text::{Hex, HexColons, HexOrDash};
use core::fmt;

/// Prints the fields, as `MTU 1500`: addresses as such, the URI of a portal in quotation marks, and names and unknown
/// data in hexadecimal. In a URI, a quotation mark and a backslash are printed after a backslash, and a byte that is
/// neither a visible character of ASCII nor a space is printed as `\x` and two digits.
impl fmt::Display for NeighborOption<'_> {
    fn fmt(&self, f: &mut fmt::Formatter<'_>) -> fmt::Result {
        match self {
            NeighborOption::SourceLinkLayerAddress(data) => {
                write!(f, "source link-layer address {}", HexColons(data))
            }
            NeighborOption::TargetLinkLayerAddress(data) => {
                write!(f, "target link-layer address {}", HexColons(data))
            }
            NeighborOption::Prefix(prefix) => write!(f, "{prefix}"),
            NeighborOption::Mtu(mtu) => write!(f, "MTU {mtu}"),
            NeighborOption::Nonce(data) => write!(f, "nonce {}", HexOrDash(data)),
            NeighborOption::Route(route) => write!(f, "{route}"),
            NeighborOption::DnsServers { lifetime, servers } => {
                write!(f, "DNS servers lifetime={lifetime}{servers}")
            }
            NeighborOption::SearchList { lifetime, names } => {
                let octets = names.octets;
                write!(
                    f,
                    "search list lifetime={lifetime} names={}",
                    HexOrDash(octets)
                )
            }
            NeighborOption::CaptivePortal(uri) => write!(f, "captive portal {}", Quoted(uri)),
            NeighborOption::Nat64Prefix(prefix) => write!(f, "{prefix}"),
            NeighborOption::Other { kind, data } => {
                write!(f, "option {kind} data={}", HexOrDash(data))
            }
        }
    }
}

// A text in quotation marks.
#[derive(Clone, Copy)]
struct Quoted<'a>(&'a [u8]);

impl fmt::Display for Quoted<'_> {
    fn fmt(&self, f: &mut fmt::Formatter<'_>) -> fmt::Result {
        f.write_str("\"")?;
        fmt_characters(f, self.0)?;
        f.write_str("\"")
    }
}

// Prints the characters of a text.
fn fmt_characters(f: &mut fmt::Formatter<'_>, octets: &[u8]) -> fmt::Result {
    for byte in octets {
        write!(f, "{}", Character(*byte))?;
    }
    Ok(())
}

// A byte of a text.
#[derive(Clone, Copy)]
struct Character(u8);

impl fmt::Display for Character {
    fn fmt(&self, f: &mut fmt::Formatter<'_>) -> fmt::Result {
        match self.0 {
            b'"' => f.write_str("\\\""),
            b'\\' => f.write_str("\\\\"),
            visible @ b' '..=b'~' => write!(f, "{}", visible as char),
            other => write!(f, "\\x{}", Hex(&[other])),
        }
    }
}
