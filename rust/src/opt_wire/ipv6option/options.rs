// Made from crates/opt_wire/src/ipv6option/options.rt by rust/erase.
//! The options of a header in turn (RFC 8200 section 4.2).

use super::{Ipv6Option, Repr};
use crate::wirebase::Result;

/// The options of a hop-by-hop or destination options header in turn, each as [`Repr::parse`] reads it, from the front
/// of the octets to their end. At the first place where it reads none, one refusal is given, and then the end.
#[derive(Debug, Clone)]
pub struct Ipv6OptionsIterator<'a> {
    // The octets after the options that were given already.
    data: &'a [u8],
    hit_error: bool,
}

impl<'a> Ipv6OptionsIterator<'a> {
    /// The options in `octets`, which are those after the first two bytes of the header. The first option begins at the
    /// front, and each other one where the one before it ends. At the first place where [`Repr::parse`] reads none,
    /// because no whole option begins there or a router alert has other than 2 bytes of data, one refusal is given, and
    /// then the end. Where no refusal is given, the options take up all the octets.
    pub fn new(octets: &'a [u8]) -> Ipv6OptionsIterator<'a> {
        Ipv6OptionsIterator {
            data: octets,
            hit_error: false,
        }
    }
}

impl<'a> Iterator for Ipv6OptionsIterator<'a> {
    type Item = Result<Repr<'a>>;

    #[inline]
    fn next(&mut self) -> Option<Result<Repr<'a>>> {
        if self.hit_error || self.data.is_empty() {
            return None;
        }
        match Repr::parse(&Ipv6Option::new_unchecked(self.data)) {
            Ok(repr) => {
                self.data = &self.data[repr.buffer_len()..];
                Some(Ok(repr))
            }
            Err(error) => {
                self.hit_error = true;
                Some(Err(error))
            }
        }
    }
}
