// Made from crates/dump_captures/src/messages.rt by rust/erase.
//! What a control packet holds, below its heading.

use crate::Fault;
use crate::content::Content;
use crate::kind::Reason;
use crate::options::Options;
use crate::refusal::Refusal;
use crate::sight::Headers;
use message_fields::{Message, show_cut_message, show_hop_by_hop, show_message};
use packet_fields::Form;
use packet_fields::field::field;
use rattle_std::io;
use rattle_std::io::Write;
#[allow(unused_imports)]
use rattle_std::prelude::*;

/// Prints what a control packet holds: its hop-by-hop options, and its message as far as it can be read. Returns why it
/// is refused or read in part, or None where all of it is listed.
pub fn show_listing<W: Write>(
    options: &Options,
    output: &mut W,
    headers: &Headers<'_>,
) -> Result<Option<Reason>, Fault> {
    if headers.is_header_refused(options.is_strict) {
        let reason = header_reason(&headers.content);
        return refuse(output, options.form, reason, &Refusal::Header);
    }
    show_header(output, options.form, headers.is_header_bad)?;
    show_hop_by_hop(output, options.form, headers.hop_by_hop)?;
    let told = show_content(options, output, &headers.content)?;
    Ok(first_of(headers.is_header_bad, &headers.content, told))
}

// Prints that the checksum of the IPv4 header is wrong, where it is.
fn show_header<W: Write>(output: &mut W, form: Form, is_bad: bool) -> io::Result<()> {
    if !is_bad {
        return Ok(());
    }
    field(output, form, "ip_checksum", "bad")
}

// The reason under which a packet is counted whose IPv4 header has a wrong checksum.
fn header_reason(content: &Content<'_>) -> Reason {
    match content {
        Content::Cut(_, _, Reason::Cut) | Content::Refused(_, Reason::Cut, _) => Reason::Cut,
        _ => Reason::Checksum,
    }
}

// The first of two reasons: that of the header, and that of the content.
fn first_of(is_header_bad: bool, content: &Content<'_>, told: Option<Reason>) -> Option<Reason> {
    if is_header_bad {
        return Some(header_reason(content));
    }
    told
}

// Prints a message, or why there is none to read.
fn show_content<W: Write>(
    options: &Options,
    output: &mut W,
    content: &Content<'_>,
) -> Result<Option<Reason>, Fault> {
    match content {
        Content::Whole(message) => show_whole(options, output, message),
        Content::Cut(message, missing, reason) => {
            show_cut_message(output, options.form, message, *missing)?;
            Ok(Some(*reason))
        }
        Content::Refused(_, reason, refusal) => refuse(output, options.form, *reason, refusal),
    }
}

// Prints the message of a whole datagram.
fn show_whole<W: Write>(
    options: &Options,
    output: &mut W,
    message: &Message<'_>,
) -> Result<Option<Reason>, Fault> {
    let told = show_message(output, options.form, message, options.is_strict)?;
    Ok(counted(told))
}

// The reason under which a message is counted that is refused or read in part.
fn counted(told: Option<message_fields::Refusal>) -> Option<Reason> {
    match told {
        Some(refusal) => Some(Refusal::Message(refusal).reason(false)),
        None => None,
    }
}

// Prints why a packet is refused, which is counted under this reason.
fn refuse<W: Write>(
    output: &mut W,
    form: Form,
    reason: Reason,
    refusal: &Refusal,
) -> Result<Option<Reason>, Fault> {
    let Ok(phrase) = refusal.to_string_in() else {
        return Err(Fault::Memory);
    };
    field(output, form, "refused", phrase.as_str())?;
    Ok(Some(reason))
}
