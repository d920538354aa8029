// Made from crates/message_fields/src/show.rt by rust/erase.
//! Messages, whole or cut.

use crate::bodies::show_body;
use crate::message::{ChecksumState, Message};
use crate::refusal::Refusal;
use packet_fields::Form;
use packet_fields::field::field;
use rattle_std::io;
use rattle_std::io::Write;
#[allow(unused_imports)]
use rattle_std::prelude::*;

/// Prints a whole message: what its checksum says (in lines only where it does not hold) and its fields, as far as they
/// can be read, and returns the first reason for which it is refused or read in part. Where `is_strict` holds, a
/// message whose checksum does not hold is refused.
pub fn show_message<W: Write>(
    output: &mut W,
    form: Form,
    message: &Message<'_>,
    is_strict: bool,
) -> io::Result<Option<Refusal>> {
    let state = message.checksum();
    if state.is_refused(is_strict) {
        show_refused(output, form, &Refusal::Checksum)?;
        return Ok(Some(Refusal::Checksum));
    }
    show_state(output, form, state)?;
    let told = show_body(output, form, message, true)?;
    Ok(first_of(state, told))
}

/// Prints a message of whose datagram the capture lacks so many bytes: their number, and the fields that are there.
pub fn show_cut_message<W: Write>(
    output: &mut W,
    form: Form,
    message: &Message<'_>,
    missing: u64,
) -> io::Result<()> {
    show_state(output, form, ChecksumState::Unverified)?;
    show_cut(output, form, missing)?;
    let _told = show_body(output, form, message, false)?;
    Ok(())
}

// Prints how many bytes are missing.
pub(crate) fn show_cut<W: Write>(output: &mut W, form: Form, missing: u64) -> io::Result<()> {
    field(output, form, "cut", missing)
}

// Prints what the checksum says.
fn show_state<W: Write>(output: &mut W, form: Form, state: ChecksumState) -> io::Result<()> {
    match form {
        Form::Lines if state != ChecksumState::Bad => Ok(()),
        _ => field(output, form, "checksum", state.name()),
    }
}

// The first of two reasons: that of the checksum, and that of the message.
fn first_of(state: ChecksumState, told: Option<Refusal>) -> Option<Refusal> {
    match state {
        ChecksumState::Bad => Some(Refusal::Checksum),
        _ => told,
    }
}

// Prints why a message is refused.
pub(crate) fn show_refused<W: Write>(
    output: &mut W,
    form: Form,
    refusal: &Refusal,
) -> io::Result<()> {
    show_phrase(output, form, "refused", refusal)
}

// Prints the phrase of a refusal.
pub(crate) fn show_phrase<W: Write>(
    output: &mut W,
    form: Form,
    key: &str,
    refusal: &Refusal,
) -> io::Result<()> {
    let phrase = refusal.to_string_in()?;
    field(output, form, key, phrase.as_str())
}
