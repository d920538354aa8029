// Made from crates/listing/src/icmp4.rt by rust/erase.
//! ICMPv4 messages.

use crate::printer::{field, line, part_field};
use control_wire::icmpv4::{Packet, Repr};
use control_wire::{ChecksumCapabilities, Ipv4Repr};
use rattle_std::io;
use rattle_std::io::Write;

/// Prints a message.
pub fn show_icmp4<W: Write>(output: &mut W, packet: &[u8]) -> io::Result<()> {
    let packet = Packet::new_unchecked(packet);
    let Ok(message) = Repr::parse(&packet, &ChecksumCapabilities::default()) else {
        return line(output, "refused");
    };
    show_message(output, &message)
}

fn show_message<W: Write>(output: &mut W, message: &Repr<'_>) -> io::Result<()> {
    match *message {
        Repr::EchoRequest {
            ident,
            seq_no,
            data,
        } => show_echo(output, "EchoRequest", ident, seq_no, data),
        Repr::EchoReply {
            ident,
            seq_no,
            data,
        } => show_echo(output, "EchoReply", ident, seq_no, data),
        Repr::DstUnreachable {
            reason,
            header,
            data,
        } => show_error(output, "DstUnreachable", reason.into(), &header, data),
        Repr::TimeExceeded {
            reason,
            header,
            data,
        } => show_error(output, "TimeExceeded", reason.into(), &header, data),
        _ => unreachable!(),
    }
}

/// Prints an echo of either ICMP after its name.
pub fn show_echo<W: Write>(
    output: &mut W,
    name: &str,
    ident: u16,
    seq_no: u16,
    data: &[u8],
) -> io::Result<()> {
    line(output, name)?;
    field(output, "ident", ident)?;
    field(output, "seq_no", seq_no)?;
    field(output, "data", data)
}

fn show_error<W: Write>(
    output: &mut W,
    name: &str,
    reason: u8,
    header: &Ipv4Repr,
    data: &[u8],
) -> io::Result<()> {
    line(output, name)?;
    field(output, "reason", reason)?;
    show_header(output, "header.", header)?;
    field(output, "data", data)
}

fn show_header<W: Write>(output: &mut W, part: &str, header: &Ipv4Repr) -> io::Result<()> {
    part_field(output, part, "src_addr", header.src_addr)?;
    part_field(output, part, "dst_addr", header.dst_addr)?;
    part_field(output, part, "next_header", u8::from(header.next_header))?;
    part_field(output, part, "payload_len", header.payload_len)?;
    part_field(output, part, "hop_limit", header.hop_limit)
}
