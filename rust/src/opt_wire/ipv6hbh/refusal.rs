// Made from crates/opt_wire/src/ipv6hbh/refusal.rt by rust/erase.
//! Why octets are refused as options of a hop-by-hop header (RFC 8200 section 4.3).

use super::{Header, Repr};
use crate::opt_wire::ipv6option;
use crate::opt_wire::ipv6option::refusal::behind_first;
use crate::wirebase::IPV6_HBH_MAX_OPTIONS;
use core::fmt;

/// Why [`Repr::parse`] refuses octets: the first check that fails.
#[derive(Debug, PartialEq, Eq, Clone, Copy)]
#[non_exhaustive]
pub enum Refusal {
    /// No bytes.
    Empty,
    /// An option that is refused, among those that a header keeps and the one after them.
    Option {
        /// The number of options before it.
        index: usize,
        /// Why it is refused.
        refusal: ipv6option::Refusal,
    },
}

impl<'a> Repr<'a> {
    /// Why [`Repr::parse`] refuses these octets, by the first check that fails; None exactly where it reads them.
    pub fn refusal<B: AsRef<[u8]> + ?Sized>(header: &Header<&'a B>) -> Option<Refusal> {
        let octets = header.options();
        if octets.is_empty() {
            return Some(Refusal::Empty);
        }
        first_bad(octets)
    }
}

// The first option that is refused, among those that a header keeps and the one after them.
fn first_bad(octets: &[u8]) -> Option<Refusal> {
    let mut rest = octets;
    for index in 0..IPV6_HBH_MAX_OPTIONS + 1 {
        if rest.is_empty() {
            return None;
        }
        match behind_first(rest) {
            Ok(behind) => rest = behind,
            Err(refusal) => return Some(Refusal::Option { index, refusal }),
        }
    }
    None
}

/// A short phrase with the number of options before the refused one, as `option 0: a length of 3 is not allowed for
/// RouterAlert`.
impl fmt::Display for Refusal {
    fn fmt(&self, f: &mut fmt::Formatter<'_>) -> fmt::Result {
        match *self {
            Refusal::Empty => f.write_str("no options"),
            Refusal::Option { index, refusal } => write!(f, "option {index}: {refusal}"),
        }
    }
}

/// The number of options, and each option in parentheses.
impl fmt::Display for Repr<'_> {
    fn fmt(&self, f: &mut fmt::Formatter<'_>) -> fmt::Result {
        let options = self.options.as_slice();
        let count = options.len();
        write!(f, "IPv6 Hop-by-Hop Options count={count}")?;
        fmt_options(f, options)
    }
}

// Prints each option in parentheses after a space.
fn fmt_options(f: &mut fmt::Formatter<'_>, options: &[ipv6option::Repr<'_>]) -> fmt::Result {
    for option in options {
        write!(f, " ({option})")?;
    }
    Ok(())
}
