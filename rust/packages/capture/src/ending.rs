// Made from crates/capture/src/ending.rt by rust/erase.
//! What ends a capture, and what ends the reading of it.

use rattle_std::io::Error;
use std::fmt;

/// The ending of a capture's records.
#[derive(Debug, PartialEq, Eq, Clone, Copy)]
pub enum Ending {
    /// The capture ends after a whole record.
    Whole,
    /// The capture ends within a record or a block.
    Cut,
    /// A record or a block is larger than what is kept.
    TooLarge,
    /// A section describes more interfaces than are kept.
    TooManyInterfaces,
    /// A block contradicts itself or what is before it, by the check that fails first.
    Malformed(Refusal),
    /// The file or the section has an unsupported version.
    Version,
    /// The bytes begin neither as a pcap file nor as a pcapng file.
    NotACapture,
}

/// Why a block of a pcapng file is refused: the check that fails first.
#[derive(Debug, PartialEq, Eq, Clone, Copy)]
#[non_exhaustive]
pub enum Refusal {
    /// A section header has neither byte order's magic number.
    ByteOrder,
    /// A block's length is below 12 or no multiple of four; this is the length.
    Length(u32),
    /// The length at the end of a block differs from that at its start.
    ClosingLength,
    /// A block has fewer bytes than its kind requires.
    Short,
    /// A block is of a kind that holds no packet; this is the kind's number.
    Kind(u32),
    /// A packet names an interface that is not described before it; this is the interface's number.
    Interface(u32),
    /// A packet is longer than its block; this is the packet's length in bytes.
    CapturedLength(u32),
}

/// What ends the reading before the capture ends.
#[derive(Debug, PartialEq, Eq, Clone, Copy)]
pub enum Fault {
    /// The input could not be read.
    Read,
    /// There was no memory.
    Memory,
}

/// The error of an input that could not be read.
impl From<Error> for Fault {
    fn from(_error: Error) -> Fault {
        Fault::Read
    }
}

/// What ended the capture, after the name of its file.
impl fmt::Display for Ending {
    fn fmt(&self, f: &mut fmt::Formatter<'_>) -> fmt::Result {
        match self {
            Ending::Whole => write!(f, "it ends behind a whole record"),
            Ending::Cut => write!(f, "it ends within a record"),
            Ending::TooLarge => write!(f, "a record is too large"),
            Ending::TooManyInterfaces => write!(f, "it describes too many interfaces"),
            Ending::Malformed(refusal) => write!(f, "a record contradicts itself: {refusal}"),
            Ending::Version => write!(f, "its version is not read"),
            Ending::NotACapture => write!(f, "it is no capture"),
        }
    }
}

/// The check that failed, with the number that was found.
impl fmt::Display for Refusal {
    fn fmt(&self, f: &mut fmt::Formatter<'_>) -> fmt::Result {
        match self {
            Refusal::ByteOrder => write!(f, "a section header tells no order of bytes"),
            Refusal::Length(len) => write!(f, "{len} is not the length of a block"),
            Refusal::ClosingLength => {
                write!(f, "a block ends with another length than it begins with")
            }
            Refusal::Short => write!(f, "a block is too short for its kind"),
            Refusal::Kind(kind) => write!(f, "a block of kind {kind} holds no packet"),
            Refusal::Interface(number) => write!(f, "interface {number} is not described"),
            Refusal::CapturedLength(len) => {
                write!(f, "a packet of {len} bytes is longer than its block")
            }
        }
    }
}

/// The fault that ended the reading.
impl fmt::Display for Fault {
    fn fmt(&self, f: &mut fmt::Formatter<'_>) -> fmt::Result {
        match self {
            Fault::Read => write!(f, "reading failed"),
            Fault::Memory => write!(f, "there is no memory"),
        }
    }
}
