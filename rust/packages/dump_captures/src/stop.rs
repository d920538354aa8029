// Made from crates/dump_captures/src/stop.rt by rust/erase.
//! Where the reading of a capture stops.

use capture::Ending;

/// Where the reading of a capture stops.
#[derive(Debug, PartialEq, Eq, Clone, Copy)]
pub enum Stop {
    /// At the end of the capture.
    Ended(Ending),
    /// After as many packets as were asked for.
    Enough,
    /// Where a read failed.
    Unread,
}
