// Made from crates/dump_captures/src/fault.rt by rust/erase.
//! Faults: what ends the printing of a capture before the capture ends.

use rattle_std::io;
use rattle_std::io::ErrorKind;

/// What ends the printing of a capture before the capture ends.
#[derive(Debug, PartialEq, Eq, Clone, Copy)]
pub enum Fault {
    /// The input could not be read.
    Read,
    /// The output could not be written.
    Write,
    /// Nobody reads the output any more.
    Closed,
    /// There was no memory.
    Memory,
}

/// An error of writing, or of memory for what is to be written.
impl From<io::Error> for Fault {
    fn from(error: io::Error) -> Fault {
        match error.kind() {
            ErrorKind::BrokenPipe => Fault::Closed,
            ErrorKind::OutOfMemory => Fault::Memory,
            _ => Fault::Write,
        }
    }
}

/// An error of reading.
impl From<capture::Fault> for Fault {
    fn from(fault: capture::Fault) -> Fault {
        match fault {
            capture::Fault::Read => Fault::Read,
            capture::Fault::Memory => Fault::Memory,
        }
    }
}
