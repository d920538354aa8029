// Made from crates/neighbor_fields/src/messages.rt by rust/erase.
//! What messages of several protocols have in common.

use crate::lack::Lack;
use control_wire::Duration;
use packet_fields::Form;
use packet_fields::field::{field, named};
use packet_fields::names::{Row, name_in};
use rattle_std::io;
use rattle_std::io::Write;

// The octets of type, code and checksum of a message of ICMPv6.
pub(crate) const HEAD_LEN: usize = 4;

// Prints type and code of a message of ICMPv6.
pub(crate) fn show_head<W: Write>(output: &mut W, form: Form, message: &[u8]) -> io::Result<()> {
    let type_ = message[0];
    named(output, form, "type", type_ as u64, type_name(type_))?;
    named(output, form, "code", message[1] as u64, None)
}

// Prints octets that are cut within fields.
pub(crate) fn show_cut<W: Write>(output: &mut W, form: Form, octets: &[u8]) -> io::Result<()> {
    field(output, form, "data", octets)?;
    field(output, form, "refused", Lack::Fields.phrase())
}

// Prints of what there is less than is counted, where that is so.
pub(crate) fn show_lack<W: Write>(
    output: &mut W,
    form: Form,
    lack: Option<Lack>,
) -> io::Result<()> {
    match lack {
        Some(lack) => field(output, form, "refused", lack.phrase()),
        None => Ok(()),
    }
}

// Prints the octets behind all that is counted, where there are any.
pub(crate) fn show_additional<W: Write>(
    output: &mut W,
    form: Form,
    octets: &[u8],
) -> io::Result<()> {
    if octets.is_empty() {
        return Ok(());
    }
    field(output, form, "additional_data", octets)
}

// So many milliseconds.
pub(crate) fn millis(count: u32) -> Duration {
    Duration::from_millis(count as u64)
}

// The name of a type of ICMPv6 (RFC 4861, RFC 2710, RFC 3810).
fn type_name(type_: u8) -> Option<&'static str> {
    name_in(TYPES, type_ as u16)
}

const TYPES: &[Row] = &[
    (130, "multicast_listener_query"),
    (131, "multicast_listener_report"),
    (132, "multicast_listener_done"),
    (133, "router_solicitation"),
    (134, "router_advertisement"),
    (135, "neighbor_solicitation"),
    (136, "neighbor_advertisement"),
    (137, "redirect"),
    (141, "inverse_neighbor_discovery_solicitation"),
    (142, "inverse_neighbor_discovery_advertisement"),
    (143, "version_2_multicast_listener_report"),
];
