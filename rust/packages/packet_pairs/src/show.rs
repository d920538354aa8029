// Made from crates/packet_pairs/src/show.rt by rust/erase.
//! What is printed of an answer.

use crate::pairs::Answered;
use control_wire::inside::text::{Sink, put_number};
use packet_fields::Form;
use packet_fields::field::field;
use packet_fields::value::{Text, Value, put_text};
use rattle_std::io;
use rattle_std::io::Write;

/// Prints what an answer is to: `answers`, the number of the packet that its question came in, and where it is known
/// `after`, the time from then on, in lines in milliseconds, as `46.200ms`; in JSON that is `after_ns`, nanoseconds.
pub fn show_answered<W: Write>(output: &mut W, form: Form, answered: &Answered) -> io::Result<()> {
    field(output, form, "answers", answered.number)?;
    show_after(output, form, answered.after)
}

// Prints the time from a question to its answer, in nanoseconds.
fn show_after<W: Write>(output: &mut W, form: Form, after: Option<u64>) -> io::Result<()> {
    match (form, after) {
        (_, None) => Ok(()),
        (Form::Lines, Some(nanoseconds)) => field(output, form, "after", Nanoseconds(nanoseconds)),
        (Form::Json, Some(nanoseconds)) => field(output, form, "after_ns", nanoseconds),
    }
}

/// A time in nanoseconds, which prints in milliseconds with three digits behind the point, as `46.200ms`.
#[derive(Debug, PartialEq, Eq, Clone, Copy)]
pub struct Nanoseconds(pub u64);

impl Text for Nanoseconds {
    fn put_into<O, S: Sink<O>>(self, output: &mut O) -> Result<(), S::Error> {
        let Nanoseconds(nanoseconds) = self;
        put_number::<O, S>(output, nanoseconds / 1_000_000)?;
        S::put_str(output, ".")?;
        put_three_digits::<O, S>(output, nanoseconds / 1_000 % 1_000)?;
        S::put_str(output, "ms")
    }
}

impl Value for Nanoseconds {
    fn put<W: Write>(self, output: &mut W, form: Form) -> io::Result<()> {
        put_text(output, form, self)
    }
}

// Puts a number below 1000 in three digits.
fn put_three_digits<O, S: Sink<O>>(output: &mut O, number: u64) -> Result<(), S::Error> {
    put_number::<O, S>(output, number / 100)?;
    put_number::<O, S>(output, number / 10 % 10)?;
    put_number::<O, S>(output, number % 10)
}
