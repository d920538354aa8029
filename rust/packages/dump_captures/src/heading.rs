// Made from crates/dump_captures/src/heading.rt by rust/erase.
//! The heading of a control packet.

use crate::arrival::Arrival;
use crate::color::{BOLD, begin_color, end_color};
use crate::numbers::Numbers;
use crate::options::Options;
use crate::sight::Headers;
use crate::time::Clock;
use crate::tunnels::show_tunnels;
use crate::verbose::show_more;
use crate::when::When;
use control_wire::frames::Addresses;
use control_wire::inside::text::{put_v4, put_v6};
use control_wire::{Field, Ipv4Address, Ipv6Address, Octets};
use packet_fields::Form;
use packet_fields::output::ToWriter;
use packet_fields::value::{Value, put_text};
use rattle_std::io;
use rattle_std::io::Write;

// The length of a VLAN tag, and of its part with the VLAN's number, in bytes.
pub(crate) const TAG_LEN: usize = 4;

const VLAN: Field = 0..2;

/// Prints the heading of a control packet.
pub fn show_heading<W: Write>(
    output: &mut W,
    clock: &mut Clock,
    options: &Options,
    arrival: &Arrival<'_>,
    headers: &Headers<'_>,
) -> io::Result<()> {
    let is_colored = options.is_colored();
    begin_color(output, is_colored, BOLD)?;
    show_words(output, clock, options.is_verbose, arrival, headers)?;
    end_color(output, is_colored)?;
    output.write_all(b"\n")
}

// Prints the words of the heading.
fn show_words<W: Write>(
    output: &mut W,
    clock: &mut Clock,
    is_verbose: bool,
    arrival: &Arrival<'_>,
    headers: &Headers<'_>,
) -> io::Result<()> {
    arrival.record.number.put(output, Form::Lines)?;
    output.write_all(b" ")?;
    show_time(output, clock, arrival.when)?;
    show_addresses(output, headers.addresses, headers.ports)?;
    show_more(output, is_verbose, arrival, headers)?;
    show_way(output, headers)?;
    output.write_all(b" ")?;
    headers.content.kind().name().put(output, Form::Lines)
}

/// Prints the words of the way to the datagram and to its message.
pub(crate) fn show_way<W: Write>(output: &mut W, headers: &Headers<'_>) -> io::Result<()> {
    show_tags(output, headers.path.tags)?;
    show_tunnels(output, &headers.path.tunnels)?;
    show_frames(output, headers.path.frames)?;
    show_hop_by_hop(output, headers.hop_by_hop)?;
    show_transport(output, headers.content.is_over_tcp())
}

/// Prints the time at which a packet was captured, where it is known.
pub(crate) fn show_time<W: Write>(
    output: &mut W,
    clock: &mut Clock,
    when: Option<When>,
) -> io::Result<()> {
    match when {
        Some(when) => put_text(output, Form::Lines, when.word(clock)),
        None => output.write_all(b"-"),
    }
}

/// Prints the source and the destination of a packet, as far as they are known.
pub(crate) fn show_addresses<W: Write>(
    output: &mut W,
    addresses: Option<Addresses>,
    ports: Option<(u16, u16)>,
) -> io::Result<()> {
    match addresses {
        Some(Addresses::V4(source, destination)) => show_v4(output, source, destination, ports),
        Some(Addresses::V6(source, destination)) => show_v6(output, source, destination, ports),
        None => Ok(()),
    }
}

fn show_v4<W: Write>(
    output: &mut W,
    source: Ipv4Address,
    destination: Ipv4Address,
    ports: Option<(u16, u16)>,
) -> io::Result<()> {
    output.write_all(b" ")?;
    put_v4::<_, ToWriter>(output, source, source_port(ports))?;
    output.write_all(b" > ")?;
    put_v4::<_, ToWriter>(output, destination, destination_port(ports))
}

fn show_v6<W: Write>(
    output: &mut W,
    source: Ipv6Address,
    destination: Ipv6Address,
    ports: Option<(u16, u16)>,
) -> io::Result<()> {
    output.write_all(b" ")?;
    put_v6::<_, ToWriter>(output, source, source_port(ports))?;
    output.write_all(b" > ")?;
    put_v6::<_, ToWriter>(output, destination, destination_port(ports))
}

pub(crate) fn source_port(ports: Option<(u16, u16)>) -> Option<u16> {
    match ports {
        Some((source, _)) => Some(source),
        None => None,
    }
}

pub(crate) fn destination_port(ports: Option<(u16, u16)>) -> Option<u16> {
    match ports {
        Some((_, destination)) => Some(destination),
        None => None,
    }
}

// Prints the number of each VLAN.
fn show_tags<W: Write>(output: &mut W, tags: &[u8]) -> io::Result<()> {
    let mut left = tags;
    while left.len() >= TAG_LEN {
        let (tag, rest) = left.split_at(TAG_LEN);
        show_tag(output, tag)?;
        left = rest;
    }
    Ok(())
}

fn show_tag<W: Write>(output: &mut W, tag: &[u8]) -> io::Result<()> {
    output.write_all(b" vlan=")?;
    show_vlan(output, tag)
}

/// Prints the number of the VLAN of a tag of four bytes.
pub(crate) fn show_vlan<W: Write>(output: &mut W, tag: &[u8]) -> io::Result<()> {
    (tag.u16_at(VLAN) % 4096).put(output, Form::Lines)
}

// Prints the numbers of the packets that the fragments of a datagram came in.
fn show_frames<W: Write>(output: &mut W, frames: &[u64]) -> io::Result<()> {
    if frames.is_empty() {
        return Ok(());
    }
    output.write_all(b" frames=")?;
    Numbers(frames).put(output, Form::Lines)
}

fn show_hop_by_hop<W: Write>(output: &mut W, options: Option<&[u8]>) -> io::Result<()> {
    match options {
        Some(_) => output.write_all(b" hbh"),
        None => Ok(()),
    }
}

fn show_transport<W: Write>(output: &mut W, is_over_tcp: bool) -> io::Result<()> {
    if !is_over_tcp {
        return Ok(());
    }
    output.write_all(b" tcp")
}
