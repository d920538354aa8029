// Made from crates/dump_captures/src/brief.rt by rust/erase.
//! A control packet on a line.

use crate::Fault;
use crate::arrival::Arrival;
use crate::color::{RED, begin_color, end_color};
use crate::content::Content;
use crate::heading::{show_addresses, show_time, show_way};
use crate::kind::Reason;
use crate::options::Options;
use crate::printed::reason_alone;
use crate::refusal::Refusal;
use crate::session::Session;
use crate::sight::Headers;
use crate::time::Clock;
use crate::verbose::show_more;
use message_brief::{show_brief, show_cut_brief};
use message_fields::{ChecksumState, Message};
use packet_fields::Form;
use packet_fields::value::Value;
use packet_pairs::{Answered, Nanoseconds};
use rattle_std::io;
use rattle_std::io::Write;
#[allow(unused_imports)]
use rattle_std::prelude::*;

/// Prints a control packet on a line. Never inlined: a part of `show_control` it makes the other forms slower.
#[inline(never)]
pub(crate) fn show_line<W: Write>(
    options: &Options,
    output: &mut W,
    session: &mut Session,
    arrival: &Arrival<'_>,
    headers: &Headers<'_>,
) -> Result<Option<Reason>, Fault> {
    let why = reason_alone(options, headers)?;
    let answer = session.see(options, arrival, headers, why)?;
    let is_red = options.is_red(why);
    begin_color(output, is_red, RED)?;
    show_front(
        output,
        &mut session.clock,
        options.is_verbose,
        arrival,
        headers,
    )?;
    show_packet(output, options.is_strict, headers)?;
    show_answer(output, answer)?;
    end_color(output, is_red)?;
    output.write_all(b"\n")?;
    Ok(why)
}

// Prints what stands before what the packet says.
fn show_front<W: Write>(
    output: &mut W,
    clock: &mut Clock,
    is_verbose: bool,
    arrival: &Arrival<'_>,
    headers: &Headers<'_>,
) -> io::Result<()> {
    arrival.record.number.put(output, Form::Lines)?;
    output.write_all(b" ")?;
    show_time(output, clock, arrival.when)?;
    show_addresses(output, headers.addresses, None)?;
    show_more(output, is_verbose, arrival, headers)?;
    show_way(output, headers)
}

// Prints what a packet says, behind the checksum of the IPv4 header, where it is wrong.
fn show_packet<W: Write>(output: &mut W, is_strict: bool, headers: &Headers<'_>) -> io::Result<()> {
    if headers.is_header_refused(is_strict) {
        return show_refused(output, &headers.content, &Refusal::Header);
    }
    show_header(output, headers.is_header_bad)?;
    show_content(output, is_strict, &headers.content)
}

// Prints that the checksum of the IPv4 header is wrong, where it is.
fn show_header<W: Write>(output: &mut W, is_bad: bool) -> io::Result<()> {
    if !is_bad {
        return Ok(());
    }
    output.write_all(b" ip_checksum=bad")
}

// Prints what a packet says.
fn show_content<W: Write>(
    output: &mut W,
    is_strict: bool,
    content: &Content<'_>,
) -> io::Result<()> {
    match content {
        Content::Whole(message) => show_whole(output, is_strict, content, message),
        Content::Cut(message, _, _) => {
            show_kind(output, content)?;
            show_cut_brief(output, message)
        }
        Content::Refused(_, _, refusal) => show_refused(output, content, refusal),
    }
}

// Prints what the message of a whole datagram says, or that it is refused for its checksum.
fn show_whole<W: Write>(
    output: &mut W,
    is_strict: bool,
    content: &Content<'_>,
    message: &Message<'_>,
) -> io::Result<()> {
    let state = message.checksum();
    if state.is_refused(is_strict) {
        let refusal = Refusal::Message(message_fields::Refusal::Checksum);
        return show_refused(output, content, &refusal);
    }
    show_checksum(output, state)?;
    show_kind(output, content)?;
    show_brief(output, message)
}

// Prints that a checksum does not hold, where it is so.
fn show_checksum<W: Write>(output: &mut W, state: ChecksumState) -> io::Result<()> {
    match state {
        ChecksumState::Bad => output.write_all(b" checksum=bad"),
        _ => Ok(()),
    }
}

// Prints the kind of a packet.
fn show_kind<W: Write>(output: &mut W, content: &Content<'_>) -> io::Result<()> {
    output.write_all(b" ")?;
    content.kind().name().put(output, Form::Lines)
}

// Prints why a packet is refused.
fn show_refused<W: Write>(
    output: &mut W,
    content: &Content<'_>,
    refusal: &Refusal,
) -> io::Result<()> {
    let phrase = refusal.to_string_in()?;
    show_kind(output, content)?;
    output.write_all(b" refused=")?;
    phrase.as_str().put(output, Form::Lines)
}

// Prints what a packet answers.
fn show_answer<W: Write>(output: &mut W, answer: Option<Answered>) -> io::Result<()> {
    let Some(answered) = answer else {
        return Ok(());
    };
    output.write_all(b" answers=")?;
    answered.number.put(output, Form::Lines)?;
    show_after(output, answered.after)
}

// Prints the time from a question to its answer, where it is known.
fn show_after<W: Write>(output: &mut W, after: Option<u64>) -> io::Result<()> {
    let Some(nanoseconds) = after else {
        return Ok(());
    };
    output.write_all(b" after=")?;
    Nanoseconds(nanoseconds).put(output, Form::Lines)
}
