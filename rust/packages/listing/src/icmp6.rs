// Made from crates/listing/src/icmp6.rt by rust/erase.
//! ICMPv6 messages.

use crate::icmp4::show_echo;
use crate::ipv6::show_header;
use crate::printer::{field, line};
use crate::{mld, ndisc};
use control_wire::icmpv6::{Packet, ParamProblem, Repr};
use control_wire::{ChecksumCapabilities, Ipv6Address, Ipv6Repr};
use rattle_std::io;
use rattle_std::io::Write;

/// Prints a message from one address to another, both by their octets.
pub fn show_icmp6<W: Write>(
    output: &mut W,
    source: [u8; 16],
    destination: [u8; 16],
    packet: &[u8],
) -> io::Result<()> {
    let source = Ipv6Address::from_octets(source);
    let destination = Ipv6Address::from_octets(destination);
    show_packet(output, &source, &destination, packet)
}

fn show_packet<W: Write>(
    output: &mut W,
    source: &Ipv6Address,
    destination: &Ipv6Address,
    packet: &[u8],
) -> io::Result<()> {
    let packet = Packet::new_unchecked(packet);
    let capabilities = ChecksumCapabilities::default();
    let Ok(message) = Repr::parse(source, destination, &packet, &capabilities) else {
        return line(output, "refused");
    };
    show_message(output, &message)
}

fn show_message<W: Write>(output: &mut W, message: &Repr<'_>) -> io::Result<()> {
    match message {
        Repr::DstUnreachable {
            reason,
            header,
            data,
        } => show_error(output, "DstUnreachable", (*reason).into(), header, data),
        Repr::PktTooBig { mtu, header, data } => show_pkt_too_big(output, *mtu, header, data),
        Repr::TimeExceeded {
            reason,
            header,
            data,
        } => show_error(output, "TimeExceeded", (*reason).into(), header, data),
        Repr::ParamProblem {
            reason,
            pointer,
            header,
            data,
        } => show_param_problem(output, *reason, *pointer, header, data),
        Repr::EchoRequest {
            ident,
            seq_no,
            data,
        } => show_echo(output, "EchoRequest", *ident, *seq_no, data),
        Repr::EchoReply {
            ident,
            seq_no,
            data,
        } => show_echo(output, "EchoReply", *ident, *seq_no, data),
        Repr::Ndisc(message) => ndisc::show_message(output, message),
        Repr::Mld(message) => mld::show_message(output, message),
        _ => unreachable!(),
    }
}

// An error that has no more than a reason.
fn show_error<W: Write>(
    output: &mut W,
    name: &str,
    reason: u8,
    header: &Ipv6Repr,
    data: &[u8],
) -> io::Result<()> {
    line(output, name)?;
    field(output, "reason", reason)?;
    show_quote(output, header, data)
}

fn show_pkt_too_big<W: Write>(
    output: &mut W,
    mtu: u32,
    header: &Ipv6Repr,
    data: &[u8],
) -> io::Result<()> {
    line(output, "PktTooBig")?;
    field(output, "mtu", mtu)?;
    show_quote(output, header, data)
}

fn show_param_problem<W: Write>(
    output: &mut W,
    reason: ParamProblem,
    pointer: u32,
    header: &Ipv6Repr,
    data: &[u8],
) -> io::Result<()> {
    line(output, "ParamProblem")?;
    field(output, "reason", u8::from(reason))?;
    field(output, "pointer", pointer)?;
    show_quote(output, header, data)
}

fn show_quote<W: Write>(output: &mut W, header: &Ipv6Repr, data: &[u8]) -> io::Result<()> {
    show_header(output, "header.", header)?;
    field(output, "data", data)
}
