//! The octets under a view: of whatever lends a slice.
//!
//! The contracts were proved for views over `&[u8]` and `&mut [u8]`, whose `as_ref` is the slice itself. Over another
//! `B`, a view does what it does over the slice that `B` lends, as long as `B` lends the same one at each call, as
//! arrays, vectors and references to them do.

use crate::wirebase::octets::{Octets, OctetsMut};

impl<B: AsRef<[u8]>> Octets for B {
    fn octets(&self) -> &[u8] {
        self.as_ref()
    }
}

impl<B: AsRef<[u8]> + AsMut<[u8]>> OctetsMut for B {
    fn range_mut(&mut self, from: usize, to: usize) -> &mut [u8] {
        &mut self.as_mut()[from..to]
    }
}
