// Made from crates/dump_captures/src/printed.rt by rust/erase.
//! A control packet in the form that is asked for.

use crate::Fault;
use crate::arrival::Arrival;
use crate::brief::show_line;
use crate::heading::show_heading;
use crate::kind::{Kind, Reason};
use crate::members::show_members;
use crate::messages::show_listing;
use crate::objects::{close_object, open_object};
use crate::options::Options;
use crate::pairing::show_answer;
use crate::session::Session;
use crate::sight::Headers;
use crate::tally::Outcome;
use packet_fields::Form;
use rattle_std::io;
use rattle_std::io::Write;

/// Prints a control packet that has these headers. Never inlined: a part of `show_packet` it costs a run of the program
/// 0.7 % of its instructions.
#[inline(never)]
pub(crate) fn show_control<W: Write>(
    options: &Options,
    output: &mut W,
    session: &mut Session,
    arrival: &Arrival<'_>,
    headers: &Headers<'_>,
) -> Result<Outcome, Fault> {
    if !options.chooses(headers) {
        return Ok(Outcome::Passed);
    }
    if !options.prints {
        return count_alone(options, headers);
    }
    let why = show_chosen(options, output, session, arrival, headers)?;
    Ok(outcome(headers.content.kind(), why))
}

// Prints a control packet.
fn show_chosen<W: Write>(
    options: &Options,
    output: &mut W,
    session: &mut Session,
    arrival: &Arrival<'_>,
    headers: &Headers<'_>,
) -> Result<Option<Reason>, Fault> {
    if options.stats {
        return see_alone(options, session, arrival, headers);
    }
    match options.form {
        Form::Json => show_object(options, output, session, arrival, headers),
        Form::Lines if options.is_brief => show_line(options, output, session, arrival, headers),
        Form::Lines => show_lines(options, output, session, arrival, headers),
    }
}

// Sees a control packet that is not printed, but counted in a page.
fn see_alone(
    options: &Options,
    session: &mut Session,
    arrival: &Arrival<'_>,
    headers: &Headers<'_>,
) -> Result<Option<Reason>, Fault> {
    let reason = reason_alone(options, headers)?;
    session.see(options, arrival, headers, reason)?;
    Ok(reason)
}

// Prints a control packet in lines.
fn show_lines<W: Write>(
    options: &Options,
    output: &mut W,
    session: &mut Session,
    arrival: &Arrival<'_>,
    headers: &Headers<'_>,
) -> Result<Option<Reason>, Fault> {
    show_heading(output, &mut session.clock, options, arrival, headers)?;
    let why = show_listing(options, output, headers)?;
    let answer = session.see(options, arrival, headers, why)?;
    show_answer(output, Form::Lines, answer)?;
    Ok(why)
}

// Prints a control packet as an object of JSON, on a line.
fn show_object<W: Write>(
    options: &Options,
    output: &mut W,
    session: &mut Session,
    arrival: &Arrival<'_>,
    headers: &Headers<'_>,
) -> Result<Option<Reason>, Fault> {
    open_object(output, "number", arrival.record.number)?;
    show_members(output, &mut session.clock, arrival, headers)?;
    let why = show_listing(options, output, headers)?;
    let answer = session.see(options, arrival, headers, why)?;
    show_answer(output, Form::Json, answer)?;
    close_object(output)?;
    Ok(why)
}

// Reads a control packet that is only counted.
fn count_alone(options: &Options, headers: &Headers<'_>) -> Result<Outcome, Fault> {
    let why = reason_alone(options, headers)?;
    Ok(outcome(headers.content.kind(), why))
}

/// Why a control packet is refused or read in part, if it is, by its listing.
pub(crate) fn reason_alone(
    options: &Options,
    headers: &Headers<'_>,
) -> Result<Option<Reason>, Fault> {
    show_listing(options, &mut io::sink(), headers)
}

// The outcome for a control packet.
fn outcome(kind: Kind, why: Option<Reason>) -> Outcome {
    match why {
        Some(reason) => Outcome::Refused(kind, reason),
        None => Outcome::Listed(kind),
    }
}
