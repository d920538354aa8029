// Made from crates/dump_captures/src/when.rt by rust/erase.
//! The times of packets, in the form that is asked for.

use crate::moment::Moment;
use crate::options::TimeForm;
use crate::time::{Clock, ClockText, TimeText};
use control_wire::inside::text::{Sink, nine_digits, put_number};
use packet_fields::Form;
use packet_fields::value::{Text, Value, put_text};
use rattle_std::io;
use rattle_std::io::Write;

/// The time of a packet, and how it is told.
#[derive(Debug, PartialEq, Eq, Clone, Copy)]
pub struct When {
    /// The form.
    pub form: TimeForm,
    /// The time of the packet from which on it is counted, where the form says so.
    pub from: Moment,
    /// The time.
    pub time: Moment,
}

/// The text of a time.
#[derive(Debug, Clone, Copy)]
pub enum TimeWord {
    /// In UTC.
    Utc(TimeText),
    /// Of the day.
    Clock(ClockText),
    /// In seconds.
    Seconds(Span),
}

/// A length of time, backwards or not.
#[derive(Debug, Clone, Copy)]
pub struct Span {
    is_negative: bool,
    len: Moment,
}

impl When {
    /// The text; a clock has the date.
    #[inline]
    pub fn word(self, clock: &mut Clock) -> TimeWord {
        let time = self.time;
        match self.form {
            TimeForm::Utc => TimeWord::Utc(clock.time(time.seconds, time.nanoseconds)),
            TimeForm::Clock => TimeWord::Clock(ClockText::of(time.seconds, time.nanoseconds)),
            TimeForm::Epoch => TimeWord::Seconds(Span {
                is_negative: false,
                len: time,
            }),
            TimeForm::Relative | TimeForm::Delta => TimeWord::Seconds(between(self.from, time)),
        }
    }
}

// The time from one moment to another.
fn between(from: Moment, to: Moment) -> Span {
    if to.is_before(from) {
        return Span {
            is_negative: true,
            len: from.since(to),
        };
    }
    Span {
        is_negative: false,
        len: to.since(from),
    }
}

impl Text for TimeWord {
    fn put_into<O, S: Sink<O>>(self, output: &mut O) -> Result<(), S::Error> {
        match self {
            TimeWord::Utc(text) => text.put_into::<O, S>(output),
            TimeWord::Clock(text) => text.put_into::<O, S>(output),
            TimeWord::Seconds(span) => span.put_into::<O, S>(output),
        }
    }
}

impl Value for TimeWord {
    fn put<W: Write>(self, output: &mut W, form: Form) -> io::Result<()> {
        put_text(output, form, self)
    }
}

impl Text for Span {
    fn put_into<O, S: Sink<O>>(self, output: &mut O) -> Result<(), S::Error> {
        let nanoseconds = nine_digits(u64::from(self.len.nanoseconds));
        S::put_str(output, sign(self.is_negative))?;
        put_number::<O, S>(output, self.len.seconds)?;
        S::put_str(output, ".")?;
        S::put(output, &nanoseconds)
    }
}

// What precedes a length of time.
fn sign(is_negative: bool) -> &'static str {
    if is_negative { "-" } else { "" }
}
