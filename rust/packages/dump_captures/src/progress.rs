// Made from crates/dump_captures/src/progress.rt by rust/erase.
//! How far a capture is printed.

use crate::moment::Moment;
use crate::options::{Options, TimeForm};
use crate::tally::Outcome;
use crate::when::When;
use capture::Time;

/// How far a capture is printed, and how the times of further packets are told.
pub struct Progress {
    form: TimeForm,
    // How many packets are left to be printed, where there is a number.
    left: Option<u64>,
    // The times of the first packet that has one, and of the last of those that were printed.
    first: Option<Moment>,
    last: Option<Moment>,
}

impl Progress {
    /// Before the first packet.
    pub fn new(options: &Options) -> Progress {
        Progress {
            form: time_form(options),
            left: options.most,
            first: None,
            last: None,
        }
    }

    /// Whether all packets are printed that are to be.
    #[inline]
    pub fn is_enough(&self) -> bool {
        self.left == Some(0)
    }

    /// How the time of the next packet is told. Requires that the time is in order.
    #[inline]
    pub fn when(&self, time: Option<Time>) -> Option<When> {
        let time = moment_of(time)?;
        let from = match self.form {
            TimeForm::Relative => self.first.unwrap_or(time),
            TimeForm::Delta => self.last.unwrap_or(time),
            TimeForm::Utc | TimeForm::Clock | TimeForm::Epoch => time,
        };
        Some(When {
            form: self.form,
            from,
            time,
        })
    }

    /// Goes on to the packet after this one. Requires that its time is in order.
    #[inline]
    pub fn pass(&mut self, time: Option<Time>, outcome: Outcome) {
        let time = moment_of(time);
        self.first = self.first.or(time);
        if is_taken(outcome) {
            self.last = time.or(self.last);
            self.left = one_less(self.left);
        }
    }
}

// The form of times.
fn time_form(options: &Options) -> TimeForm {
    let usual = if options.is_brief {
        TimeForm::Clock
    } else {
        TimeForm::Utc
    };
    options.time_form.unwrap_or(usual)
}

// The moment of a time.
fn moment_of(time: Option<Time>) -> Option<Moment> {
    match time {
        Some(time) => Some(Moment::of(time)),
        None => None,
    }
}

// Whether a packet was printed, or would have been.
fn is_taken(outcome: Outcome) -> bool {
    matches!(outcome, Outcome::Listed(_) | Outcome::Refused(_, _))
}

fn one_less(left: Option<u64>) -> Option<u64> {
    match left {
        Some(left) => Some(left.saturating_sub(1)),
        None => None,
    }
}
