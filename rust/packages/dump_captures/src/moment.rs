// Made from crates/dump_captures/src/moment.rt by rust/erase.
//! Moments, and the time between them.

use capture::Time;

const SECOND_NANOSECONDS: u32 = 1_000_000_000;

/// A time, or a length of time.
#[derive(Debug, PartialEq, Eq, Clone, Copy)]
pub struct Moment {
    /// The seconds.
    pub seconds: u64,
    /// The nanoseconds behind them.
    pub nanoseconds: u32,
}

impl Moment {
    /// That of a capture, which has to be in order.
    pub fn of(time: Time) -> Moment {
        Moment {
            seconds: time.seconds,
            nanoseconds: time.nanoseconds,
        }
    }

    /// Whether this comes before another.
    pub fn is_before(self, other: Moment) -> bool {
        self.seconds < other.seconds
            || (self.seconds == other.seconds && self.nanoseconds < other.nanoseconds)
    }

    /// The length of time from another moment to this one. Requires that the other is not later.
    pub fn since(self, earlier: Moment) -> Moment {
        if self.nanoseconds < earlier.nanoseconds {
            return Moment {
                seconds: self.seconds - earlier.seconds - 1,
                nanoseconds: SECOND_NANOSECONDS + self.nanoseconds - earlier.nanoseconds,
            };
        }
        Moment {
            seconds: self.seconds - earlier.seconds,
            nanoseconds: self.nanoseconds - earlier.nanoseconds,
        }
    }
}
