// Made from crates/wirebase/src/duration.rt by rust/erase.
//! A span of time.

use core::fmt;

/// A span of time in whole microseconds: at most 18,446,744,073,709,551,615, some 584,000 years.
///
/// Durations are equal, and one is less than another, as their numbers of microseconds are.
#[derive(Debug, PartialEq, Eq, PartialOrd, Ord, Clone, Copy)]
pub struct Duration {
    micros: u64,
}

impl Duration {
    /// No time at all.
    pub const ZERO: Duration = Duration { micros: 0 };

    /// The duration of `micros` microseconds.
    pub const fn from_micros(micros: u64) -> Duration {
        Duration { micros }
    }

    /// The duration of `millis` milliseconds. Requires at most 18,446,744,073,709,551 of them.
    ///
    /// # Panics
    ///
    /// May panic where what is asked for above does not hold.
    pub const fn from_millis(millis: u64) -> Duration {
        Duration::from_micros(1_000 * millis)
    }

    /// The duration of `secs` seconds. Requires at most 18,446,744,073,709 of them.
    ///
    /// # Panics
    ///
    /// May panic where what is asked for above does not hold.
    pub const fn from_secs(secs: u64) -> Duration {
        Duration::from_micros(1_000_000 * secs)
    }

    /// The whole duration in microseconds.
    pub const fn total_micros(&self) -> u64 {
        self.micros
    }

    /// The whole duration in milliseconds, without the microseconds past them.
    pub const fn total_millis(&self) -> u64 {
        self.total_micros() / 1_000
    }

    /// The whole duration in seconds, without the fraction.
    pub const fn secs(&self) -> u64 {
        self.total_millis() / 1_000
    }

    /// The whole milliseconds past the whole seconds, 0 to 999.
    pub const fn millis(&self) -> u64 {
        self.total_millis() % 1_000
    }
}

/// The whole seconds, a dot, the milliseconds past them in three digits, and `s`, as `12.800s`.
impl fmt::Display for Duration {
    fn fmt(&self, f: &mut fmt::Formatter<'_>) -> fmt::Result {
        let secs = self.secs();
        let millis = self.millis();
        let hundreds = millis / 100;
        let tens = millis / 10 % 10;
        let ones = millis % 10;
        write!(f, "{secs}.{hundreds}{tens}{ones}s")
    }
}
