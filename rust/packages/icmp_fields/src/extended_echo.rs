// Made from crates/icmp_fields/src/extended_echo.rt by rust/erase.
//! Requests about an interface and their answers (RFC 8335), which ICMPv4 and ICMPv6 have in common but for their
//! types.

mod interface;

use crate::icmp::{HEADER_END, show_additional};
use control_wire::Octets;
use interface::show_structure;
use packet_fields::Form;
use packet_fields::field::{field, named};
use rattle_std::io;
use rattle_std::io::Write;

// The fields of messages.
mod place {
    use control_wire::Field;

    pub const IDENT: Field = 4..6;

    pub const SEQ_NO: Field = 6..7;

    // the flag L of a request; the state and the flags of its answer
    pub const FLAGS: Field = 7..8;
}

// Prints a request, whole or cut, and the interface that is asked for.
pub(crate) fn show_request<W: Write>(
    output: &mut W,
    form: Form,
    message: &[u8],
    is_whole: bool,
) -> io::Result<()> {
    let (_, structure) = message.split_at(HEADER_END);
    show_request_fields(output, form, message)?;
    show_structure(output, form, structure, is_whole)
}

fn show_request_fields<W: Write>(output: &mut W, form: Form, message: &[u8]) -> io::Result<()> {
    field(output, form, "ident", message.u16_at(place::IDENT))?;
    field(output, form, "seq_no", message.u8_at(place::SEQ_NO))?;
    field(output, form, "local", message.u8_at(place::FLAGS) % 2 == 1)
}

// Prints an answer.
pub(crate) fn show_reply<W: Write>(output: &mut W, form: Form, message: &[u8]) -> io::Result<()> {
    let (_, behind) = message.split_at(HEADER_END);
    field(output, form, "ident", message.u16_at(place::IDENT))?;
    field(output, form, "seq_no", message.u8_at(place::SEQ_NO))?;
    show_state(output, form, message.u8_at(place::FLAGS))?;
    show_additional(output, form, behind)
}

// Prints the state and the flags of an answer.
fn show_state<W: Write>(output: &mut W, form: Form, flags: u8) -> io::Result<()> {
    let state = flags / 32;
    named(output, form, "state", state as u64, state_name(state))?;
    field(output, form, "active", flags / 4 % 2 == 1)?;
    field(output, form, "ipv4", flags / 2 % 2 == 1)?;
    field(output, form, "ipv6", flags % 2 == 1)
}

// The name of the state of a table entry.
fn state_name(state: u8) -> Option<&'static str> {
    match state {
        0 => Some("reserved"),
        1 => Some("incomplete"),
        2 => Some("reachable"),
        3 => Some("stale"),
        4 => Some("delay"),
        5 => Some("probe"),
        6 => Some("failed"),
        _ => None,
    }
}
