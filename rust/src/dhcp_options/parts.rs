// Made from crates/dhcp_options/src/parts.rt by rust/erase.
//! The parts of options in a packet, in turn.

use crate::dhcp_options::areas::Areas;
use crate::dhcp_options::front::Placed;
use crate::dhcp_options::overload::Overload;
use core::{fmt, result};

/// A field of a packet that may hold options (RFC 2131 section 2).
#[derive(Debug, PartialEq, Eq, Clone, Copy)]
pub enum Area {
    /// The options field, from byte 240 on.
    Options,
    /// `file`, bytes 108 to 235.
    File,
    /// `sname`, bytes 44 to 107.
    Sname,
}

/// The name of the field.
impl fmt::Display for Area {
    fn fmt(&self, f: &mut fmt::Formatter<'_>) -> fmt::Result {
        f.write_str(match self {
            Area::Options => "options",
            Area::File => "file",
            Area::Sname => "sname",
        })
    }
}

/// A part of an option, and most often all of it: octets behind one kind and one length.
#[derive(Debug, PartialEq, Eq, Clone, Copy)]
pub struct Part<'a> {
    /// Where it stands.
    pub area: Area,
    /// The kind of the option, neither padding nor the end mark.
    pub kind: u8,
    /// The data, 0 to 255 bytes.
    pub octets: &'a [u8],
    /// Whether no part before it has its kind.
    pub is_first: bool,
}

/// An area ends within an option: before its length, or within its data (RFC 2132 section 2).
#[derive(Debug, PartialEq, Eq, Clone, Copy)]
pub struct Refusal {
    /// The area.
    pub area: Area,
    /// The kind of the option.
    pub kind: u8,
}

/// What is wrong with the area.
impl fmt::Display for Refusal {
    fn fmt(&self, f: &mut fmt::Formatter<'_>) -> fmt::Result {
        let Refusal { area, kind } = self;
        write!(f, "option {kind} is cut at the end of {area}")
    }
}

/// The parts of the options of a packet in turn: those of the options field, then those of `file` and of `sname`, where
/// option 52 says that these hold options (RFC 2131 section 4.1). Padding is skipped. An area ends at its end mark, or
/// with its last byte; where it ends within an option, that option is one refusal, and the next area follows.
#[derive(Debug, Clone)]
pub struct Parts<'a> {
    pub(crate) areas: Areas<'a>,
    // Of each kind whether a part that was returned has it.
    seen: [bool; 256],
}

impl<'a> Parts<'a> {
    /// The parts of the options of the packet in these octets; those of one kind have at most as many bytes as the
    /// packet. Its other fields, as the magic cookie, are not looked at. Requires at least 240 bytes, as those of a
    /// view that was checked: `Parts::of(packet.into_inner())`.
    ///
    /// # Panics
    ///
    /// May panic where what is asked for above does not hold.
    pub fn of(octets: &'a [u8]) -> Parts<'a> {
        Parts {
            areas: Areas::new(octets, Overload::of(octets)),
            seen: [false; 256],
        }
    }
}

impl<'a> Iterator for Parts<'a> {
    type Item = result::Result<Part<'a>, Refusal>;

    fn next(&mut self) -> Option<result::Result<Part<'a>, Refusal>> {
        match self.areas.next_answer()? {
            Ok(Placed { area, option }) => {
                let is_first = !self.seen[option.kind as usize];
                self.seen[option.kind as usize] = true;
                Some(Ok(Part {
                    area,
                    kind: option.kind,
                    octets: option.data,
                    is_first,
                }))
            }
            Err(refusal) => Some(Err(refusal)),
        }
    }
}
