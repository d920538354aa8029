// Made from crates/icmp_fields/src/icmp6.rt by rust/erase.
//! ICMPv6 messages (RFC 4443).

use crate::extensions::{quoted_of, show_extensions};
use crate::icmp::{
    CHECKSUM_END, CODE, HEADER_END, TYPE, show_behind_checksum, show_named_head, show_refused,
    show_rest,
};
use crate::icmp_names::{icmp6_code_name, icmp6_type_name};
use crate::node_information::{wrong_node, wrong_reply};
use crate::quote::show_ipv6_quote;
use crate::refusal::{Refusal, Told};
use crate::{extended_echo, icmp, node_information};
use control_wire::Octets;
use control_wire::icmpv6;
use control_wire::quotes::icmpv6_error::{Kind, Repr};
use control_wire::quotes::quote::{Ipv6Quote, Upper};
use packet_fields::Form;
use packet_fields::field::field;
use rattle_std::io;
use rattle_std::io::Write;

const ECHO_REQUEST: u8 = 128;

const ECHO_REPLY: u8 = 129;

// The types of messages that are neither echoes nor errors, and are told by their fields here.
const NODE_INFORMATION_QUERY: u8 = 139;

const NODE_INFORMATION_RESPONSE: u8 = 140;

const EXTENDED_ECHO_REQUEST: u8 = 160;

const EXTENDED_ECHO_REPLY: u8 = 161;

/// Prints a message that was read in these octets: of an echo its fields; of every other, as [`show_unread`] does, its
/// octets. Errors are for [`show_error`].
pub fn show_message<W: Write>(
    output: &mut W,
    form: Form,
    message: &icmpv6::Repr<'_>,
    octets: &[u8],
) -> io::Result<()> {
    match message {
        icmpv6::Repr::EchoRequest {
            ident,
            seq_no,
            data,
        } => show_echo(output, form, ECHO_REQUEST, *ident, *seq_no, data),
        icmpv6::Repr::EchoReply {
            ident,
            seq_no,
            data,
        } => show_echo(output, form, ECHO_REPLY, *ident, *seq_no, data),
        _ => show_unread(output, form, octets, true),
    }
}

/// Prints a message of any type, which need not be known: its type, its code, and of node information (RFC 4620) and of
/// an extended echo (RFC 8335) its fields; of others, and of those that are refused, the octets behind the checksum. An
/// answer that ends within an address has the addresses that are there, and why it is refused. Of fewer than 4 octets,
/// all. Of a message that is not whole the checksum of an extended echo's structure is not verified.
pub fn show_unread<W: Write>(
    output: &mut W,
    form: Form,
    octets: &[u8],
    is_whole: bool,
) -> io::Result<()> {
    if octets.len() < CHECKSUM_END {
        show_rest(output, form, octets)
    } else {
        show_typed(output, form, octets, is_whole)
    }
}

fn show_typed<W: Write>(
    output: &mut W,
    form: Form,
    octets: &[u8],
    is_whole: bool,
) -> io::Result<()> {
    show_head(output, form, octets.u8_at(TYPE), octets.u8_at(CODE))?;
    show_behind(output, form, octets, is_whole)
}

// Prints what follows the checksum.
fn show_behind<W: Write>(
    output: &mut W,
    form: Form,
    octets: &[u8],
    is_whole: bool,
) -> io::Result<()> {
    if octets.len() < HEADER_END {
        return show_behind_checksum(output, form, octets);
    }
    show_told_or_refused(output, form, octets, is_whole)
}

fn show_told_or_refused<W: Write>(
    output: &mut W,
    form: Form,
    octets: &[u8],
    is_whole: bool,
) -> io::Result<()> {
    match refusal(octets) {
        None => show_by_type(output, form, octets, is_whole),
        Some(Refusal::Cut) => {
            show_by_type(output, form, octets, is_whole)?;
            field(output, form, "refused", Refusal::Cut)
        }
        Some(why) => show_refused(output, form, octets, why),
    }
}

/// Why a message that is told by its fields is refused, where it is; None of every other type. Requires 8 octets.
pub fn refusal(octets: &[u8]) -> Option<Refusal> {
    match octets[0] {
        NODE_INFORMATION_QUERY => wrong_node(octets),
        NODE_INFORMATION_RESPONSE => wrong_reply(octets),
        _ => None,
    }
}

/// How a message that is neither an error nor an echo is told by [`show_unread`].
pub fn told(octets: &[u8]) -> Told {
    if octets.len() < HEADER_END {
        return Told::Octets;
    }
    match refusal(octets) {
        Some(why) => Told::Refused(why),
        None if is_told(octets[0]) => Told::Fields,
        None => Told::Octets,
    }
}

// Whether a type is one that is told by its fields.
fn is_told(type_: u8) -> bool {
    matches!(
        type_,
        NODE_INFORMATION_QUERY
            | NODE_INFORMATION_RESPONSE
            | EXTENDED_ECHO_REQUEST
            | EXTENDED_ECHO_REPLY
    )
}

// Prints a message that has its fields: these, or of another type its octets.
fn show_by_type<W: Write>(
    output: &mut W,
    form: Form,
    octets: &[u8],
    is_whole: bool,
) -> io::Result<()> {
    match octets[0] {
        NODE_INFORMATION_QUERY => node_information::show_query(output, form, octets),
        NODE_INFORMATION_RESPONSE => node_information::show_reply(output, form, octets),
        EXTENDED_ECHO_REQUEST => extended_echo::show_request(output, form, octets, is_whole),
        EXTENDED_ECHO_REPLY => extended_echo::show_reply(output, form, octets),
        _ => show_behind_checksum(output, form, octets),
    }
}

fn show_head<W: Write>(output: &mut W, form: Form, type_: u8, code: u8) -> io::Result<()> {
    let type_name = icmp6_type_name(type_);
    let code_name = icmp6_code_name(type_, code);
    show_named_head(output, form, type_, type_name, code, code_name)
}

fn show_echo<W: Write>(
    output: &mut W,
    form: Form,
    type_: u8,
    ident: u16,
    seq_no: u16,
    data: &[u8],
) -> io::Result<()> {
    show_head(output, form, type_, 0)?;
    icmp::show_echo(output, form, ident, seq_no, data)
}

/// Prints an error, what it quotes, and the extensions behind that (RFC 4884). Extensions whose checksum is wrong are
/// refused, and printed by their octets. Where `is_whole` is false the capture cut the message: then the checksum can't
/// be verified, and is not looked at. Requires that the error quotes the start of a packet, as each does that
/// `Repr::parse` gives.
pub fn show_error<W: Write>(
    output: &mut W,
    form: Form,
    error: &Repr<'_>,
    is_whole: bool,
) -> io::Result<()> {
    let division = error.parts();
    let Ok(quote) = Ipv6Quote::parse(quoted_of(&division, error.quoted)) else {
        // The start of a packet is never refused.
        return Ok(());
    };
    show_quoting(output, form, error, &quote, quote.upper())?;
    show_extensions(output, form, &division, is_whole)
}

// Prints an error and this that it quotes, with what the quoted headers lead to.
fn show_quoting<W: Write>(
    output: &mut W,
    form: Form,
    error: &Repr<'_>,
    quote: &Ipv6Quote<'_>,
    upper: Option<Upper<'_>>,
) -> io::Result<()> {
    show_head(output, form, error.kind.number(), error.code)?;
    show_told(output, form, error)?;
    show_ipv6_quote(output, form, quote, upper)
}

// Prints what the four bytes after the checksum say.
fn show_told<W: Write>(output: &mut W, form: Form, error: &Repr<'_>) -> io::Result<()> {
    match error.kind {
        Kind::PktTooBig => field(output, form, "mtu", error.rest),
        Kind::ParamProblem => field(output, form, "pointer", error.rest),
        Kind::DstUnreachable | Kind::TimeExceeded => Ok(()),
    }
}
