// Made from crates/neighbor_wire/src/writer.rt by rust/erase.
//! Options written one after another.

use crate::neighbors::option::NeighborOption;
use crate::neighbors::unwritten::{Unwritten, check_value};

/// Writes options over a slice, one after another from its front on.
///
/// Several prefixes or routes of one router advertisement are written so: first these options, into the octets behind
/// the `packet_len` bytes of the message; then the message, by `icmpv6::Repr::emit_into` over the octets of both, which
/// leaves what is behind it, and whose checksum covers all.
#[derive(Debug)]
pub struct OptionsWriter<'a> {
    buffer: &'a mut [u8],
    position: usize,
}

impl<'a> OptionsWriter<'a> {
    /// A writer over this slice, all of whose bytes are free.
    pub fn new(buffer: &'a mut [u8]) -> OptionsWriter<'a> {
        OptionsWriter {
            buffer,
            position: 0,
        }
    }

    /// The bytes of the options that are written so far.
    pub fn len(&self) -> usize {
        self.position
    }

    /// Whether no option is written so far.
    pub fn is_empty(&self) -> bool {
        self.position == 0
    }

    /// Writes an option behind those that are written; [`crate::neighbors::NeighborOptions`] then gives it after them. Zeros that
    /// fill its last unit then belong to its octets, but to no URI. An option that would be refused or read as another
    /// is refused, with the reason, and so is one where fewer bytes are free than it takes; then nothing changes.
    pub fn push(&mut self, option: &NeighborOption<'_>) -> Result<(), Unwritten> {
        check_value(option)?;
        let start = self.position;
        let len = option.buffer_len();
        if self.buffer.len() - start < len {
            return Err(Unwritten::Full);
        }
        let end = start + len;
        write_whole(option, &mut self.buffer[start..end]);
        self.position = end;
        Ok(())
    }
}

// Writes the option over octets of its length.
fn write_whole(option: &NeighborOption<'_>, octets: &mut [u8]) {
    option.emit_into(octets);
}
