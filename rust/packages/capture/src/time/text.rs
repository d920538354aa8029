// Made from crates/capture/src/time/text.rt by rust/erase.
//! Times as RFC 3339 writes them (section 5.6), in UTC.

use crate::calendar::{Date, date_of};
use crate::time::Time;
use control_wire::inside::text::{Sink, ToFormatter, TwoDigits, nine_digits};
use std::fmt;

const DAY_SECONDS: u64 = 86_400;

/// As RFC 3339 writes it in UTC, with as many digits of a second as the time has: `2026-11-28T00:29:29.123456Z`. A year
/// above 9999 has more than four digits.
impl fmt::Display for Time {
    fn fmt(&self, f: &mut fmt::Formatter<'_>) -> fmt::Result {
        let day = date_of(self.seconds / DAY_SECONDS);
        let clock = Clock(self.seconds);
        let fraction = Fraction {
            digits: self.digits,
            nanoseconds: self.nanoseconds,
        };
        write!(f, "{day}T{clock}{fraction}Z")
    }
}

/// The date as RFC 3339 writes it, as `2026-11-28`.
impl fmt::Display for Date {
    fn fmt(&self, f: &mut fmt::Formatter<'_>) -> fmt::Result {
        let Date { year, month, day } = *self;
        write!(f, "{year}-{}-{}", TwoDigits(month), TwoDigits(day))
    }
}

// The hour, the minute and the second of a number of seconds.
#[derive(Clone, Copy)]
struct Clock(u64);

impl fmt::Display for Clock {
    fn fmt(&self, f: &mut fmt::Formatter<'_>) -> fmt::Result {
        let hour = TwoDigits(self.0 / 3_600 % 24);
        let minute = TwoDigits(self.0 / 60 % 60);
        let second = TwoDigits(self.0 % 60);
        write!(f, "{hour}:{minute}:{second}")
    }
}

// The first digits of nanoseconds after a point, or nothing where there are none.
#[derive(Clone, Copy)]
struct Fraction {
    digits: u8,
    nanoseconds: u32,
}

impl fmt::Display for Fraction {
    fn fmt(&self, f: &mut fmt::Formatter<'_>) -> fmt::Result {
        if self.digits == 0 {
            return Ok(());
        }
        let all = nine_digits(u64::from(self.nanoseconds));
        f.write_str(".")?;
        ToFormatter::put(f, first_digits(&all, self.digits))
    }
}

// The first of nine digits, this many, or all where that is more.
fn first_digits(all: &[u8; 9], count: u8) -> &[u8] {
    &all[..(count as usize).min(9)]
}
