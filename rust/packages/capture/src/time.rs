// Made from crates/capture/src/time.rt by rust/erase.
//! The times of packets.

mod text;

use crate::pcap::Precision;
use std::cmp::Ordering;
use std::time::Duration;

// The nanoseconds and the microseconds in a second.
const NANOS_A_SECOND: u64 = 1_000_000_000;

const MICROS_A_SECOND: u64 = 1_000_000;

// The nanoseconds in a second, among those of any resolution.
const NANOS: u128 = 1_000_000_000;

// The digits of a second in microseconds and in nanoseconds, which are the most that are kept.
const MICRO_DIGITS: u8 = 6;

const NANO_DIGITS: u8 = 9;

/// A time, since 1970-01-01 00:00:00 UTC.
///
/// Times are equal, and one is less than another, as their nanoseconds since then are, whatever their digits. A time
/// prints as RFC 3339 writes it, in UTC and with its own digits.
#[derive(Debug, Clone, Copy)]
pub struct Time {
    /// The whole seconds.
    pub seconds: u64,
    /// The nanoseconds after them, fewer than 1,000,000,000.
    pub nanoseconds: u32,
    /// The number of decimal digits of a second in its file, 0 to 9: 6 where the file counts microseconds.
    pub digits: u8,
}

impl Time {
    /// 1970-01-01 00:00:00 UTC, in whole seconds.
    pub const ZERO: Time = Time {
        seconds: 0,
        nanoseconds: 0,
        digits: 0,
    };

    /// The time of a second and a fraction after it, which may be more than a second.
    pub fn of_fraction(seconds: u32, fraction: u32, precision: Precision) -> Time {
        match precision {
            Precision::Micro => Time::of_micros(seconds as u64 * MICROS_A_SECOND + fraction as u64),
            Precision::Nano => {
                Time::of_nanos_u64(seconds as u64 * NANOS_A_SECOND + fraction as u64)
            }
        }
    }

    /// The time of this many units of a resolution, rounded down to nanoseconds. A resolution below 128 is a number of
    /// decimal digits, and one from 128 on is 128 more than a number of binary digits.
    pub fn of_ticks(ticks: u64, resolution: u8) -> Time {
        // 64 bits are enough for nearly all captures.
        match resolution {
            6 => Time::of_micros(ticks),
            9 => Time::of_nanos_u64(ticks),
            _ => Time::of_nanos_u128(nanoseconds(ticks, resolution), digits(resolution)),
        }
    }

    /// The nanoseconds since 1970-01-01 00:00:00 UTC.
    pub fn as_nanos(&self) -> u128 {
        self.seconds as u128 * NANOS + self.nanoseconds as u128
    }

    /// The time `seconds` later, or earlier where they are negative, as by the option if_tsoffset of an interface of
    /// pcapng. A time before 1970 becomes 1970-01-01, and one whose seconds exceed 64 bits gets the greatest of them.
    ///
    /// # Panics
    ///
    /// May panic where what is asked for above does not hold.
    #[inline]
    pub fn moved(self, seconds: i64) -> Time {
        if seconds == 0 {
            return self;
        }
        let (seconds, nanoseconds) = moved_parts(self.seconds, self.nanoseconds, seconds);
        Time {
            seconds,
            nanoseconds,
            digits: self.digits,
        }
    }

    // The time moved by any number of seconds.
    fn shifted(self, seconds: i64) -> Time {
        if seconds < 0 {
            return self.earlier(seconds.unsigned_abs());
        }
        self.later(seconds as u64)
    }

    // The time this many seconds later, where the seconds are limited to 64 bits.
    fn later(self, seconds: u64) -> Time {
        Time {
            seconds: self.seconds.saturating_add(seconds),
            nanoseconds: self.nanoseconds,
            digits: self.digits,
        }
    }

    // The time this many seconds earlier, or 1970-01-01 where that is before it.
    fn earlier(self, seconds: u64) -> Time {
        match self.seconds.checked_sub(seconds) {
            Some(seconds) => Time {
                seconds,
                nanoseconds: self.nanoseconds,
                digits: self.digits,
            },
            None => Time {
                seconds: 0,
                nanoseconds: 0,
                digits: self.digits,
            },
        }
    }

    // The time of this many microseconds.
    fn of_micros(micros: u64) -> Time {
        Time {
            seconds: micros / MICROS_A_SECOND,
            nanoseconds: (micros % MICROS_A_SECOND) as u32 * 1000,
            digits: MICRO_DIGITS,
        }
    }

    // The time of a number of nanoseconds that 64 bits hold.
    fn of_nanos_u64(nanos: u64) -> Time {
        Time {
            seconds: nanos / NANOS_A_SECOND,
            nanoseconds: (nanos % NANOS_A_SECOND) as u32,
            digits: NANO_DIGITS,
        }
    }

    // The time of this many nanoseconds, with this many digits.
    fn of_nanos_u128(nanoseconds: u128, digits: u8) -> Time {
        Time {
            seconds: (nanoseconds / NANOS) as u64,
            nanoseconds: (nanoseconds % NANOS) as u32,
            digits,
        }
    }
}

// The parts of a time that is moved. A function of its own, since nearly all captures move no times. It returns two
// numbers, since a time of three would go through memory in each capture.
#[inline(never)]
fn moved_parts(seconds: u64, nanoseconds: u32, by: i64) -> (u64, u32) {
    let time = Time {
        seconds,
        nanoseconds,
        digits: 0,
    };
    let time = time.shifted(by);
    (time.seconds, time.nanoseconds)
}

/// Times are equal exactly where their nanoseconds since 1970 are.
impl PartialEq for Time {
    fn eq(&self, other: &Time) -> bool {
        self.as_nanos() == other.as_nanos()
    }
}

impl Eq for Time {}

/// The earlier of two times is the lesser.
impl Ord for Time {
    fn cmp(&self, other: &Time) -> Ordering {
        self.as_nanos().cmp(&other.as_nanos())
    }
}

impl PartialOrd for Time {
    fn partial_cmp(&self, other: &Time) -> Option<Ordering> {
        Some(self.cmp(other))
    }
}

/// The span since 1970-01-01 00:00:00 UTC, the longest where that would be longer.
impl From<Time> for Duration {
    fn from(time: Time) -> Duration {
        let past = Duration::from_nanos(time.nanoseconds as u64);
        Duration::from_secs(time.seconds).saturating_add(past)
    }
}

// The number of digits of a second in a resolution.
fn digits(resolution: u8) -> u8 {
    (resolution % 128).min(NANO_DIGITS)
}

// The whole nanoseconds in this many units of a resolution.
fn nanoseconds(ticks: u64, resolution: u8) -> u128 {
    let scaled = ticks as u128 * NANOS;
    if resolution < 128 {
        divided(scaled, 10, resolution)
    } else {
        divided(scaled, 2, resolution - 128)
    }
}

// The number divided by a power of a base.
fn divided(number: u128, base: u128, exponent: u8) -> u128 {
    let mut quotient = number;
    for _ in 0..exponent {
        quotient /= base;
    }
    quotient
}
