// Made from crates/dump_captures/src/members.rt by rust/erase.
//! The members of a control packet's object in JSON that its heading has in lines.

use crate::arrival::Arrival;
use crate::heading::{TAG_LEN, destination_port, show_vlan, source_port};
use crate::numbers::Numbers;
use crate::sight::Headers;
use crate::time::Clock;
use crate::tunnels::show_tunnel_members;
use crate::when::When;
use control_wire::frames::Addresses;
use control_wire::frames::names::link_name;
use packet_fields::Form;
use packet_fields::field::{field, named};
use packet_fields::value::Value;
use rattle_std::io;
use rattle_std::io::Write;

/// Prints the members.
pub fn show_members<W: Write>(
    output: &mut W,
    clock: &mut Clock,
    arrival: &Arrival<'_>,
    headers: &Headers<'_>,
) -> io::Result<()> {
    show_file(output, arrival.file)?;
    show_time(output, clock, arrival.when)?;
    show_link(output, arrival.record.link_type)?;
    show_lengths(
        output,
        arrival.octets.len() as u64,
        arrival.record.original_len,
    )?;
    show_path(output, headers)?;
    field(output, Form::Json, "kind", headers.content.kind().name())
}

/// Prints the name of the file, where it is to be told.
pub(crate) fn show_file<W: Write>(output: &mut W, file: Option<&str>) -> io::Result<()> {
    match file {
        Some(name) => field(output, Form::Json, "file", name),
        None => Ok(()),
    }
}

// Prints the time at which the packet was captured.
fn show_time<W: Write>(output: &mut W, clock: &mut Clock, when: Option<When>) -> io::Result<()> {
    match when {
        Some(when) => field(output, Form::Json, "time", when.word(clock)),
        None => field(output, Form::Json, "time", None::<&str>),
    }
}

// Prints the type of the link.
fn show_link<W: Write>(output: &mut W, link_type: u16) -> io::Result<()> {
    let name = link_name(link_type);
    named(output, Form::Json, "link", link_type as u64, name)
}

// Prints how many bytes of the packet were captured, and how many it had.
fn show_lengths<W: Write>(output: &mut W, len: u64, original_len: u32) -> io::Result<()> {
    field(output, Form::Json, "length", len)?;
    field(output, Form::Json, "original_length", original_len)
}

// Prints the way to the datagram, the addresses and the ports.
fn show_path<W: Write>(output: &mut W, headers: &Headers<'_>) -> io::Result<()> {
    field(output, Form::Json, "vlans", Vlans(headers.path.tags))?;
    show_tunnel_members(output, &headers.path.tunnels)?;
    show_addresses(output, headers.addresses)?;
    show_ports(output, headers.ports)?;
    show_frames(output, headers.path.frames)?;
    show_transport(output, headers.content.is_over_tcp())
}

// Prints that a message came over TCP.
fn show_transport<W: Write>(output: &mut W, is_over_tcp: bool) -> io::Result<()> {
    if !is_over_tcp {
        return Ok(());
    }
    field(output, Form::Json, "transport", "tcp")
}

// Prints the numbers of the packets that the fragments of a datagram came in.
fn show_frames<W: Write>(output: &mut W, frames: &[u64]) -> io::Result<()> {
    if frames.is_empty() {
        return Ok(());
    }
    field(output, Form::Json, "frames", Numbers(frames))
}

fn show_ports<W: Write>(output: &mut W, ports: Option<(u16, u16)>) -> io::Result<()> {
    field(output, Form::Json, "src_port", source_port(ports))?;
    field(output, Form::Json, "dst_port", destination_port(ports))
}

fn show_addresses<W: Write>(output: &mut W, addresses: Option<Addresses>) -> io::Result<()> {
    match addresses {
        Some(Addresses::V4(source, destination)) => show_ends(output, source, destination),
        Some(Addresses::V6(source, destination)) => show_ends(output, source, destination),
        None => show_ends(output, None::<&str>, None::<&str>),
    }
}

// Prints the source and the destination.
fn show_ends<V: Value, W: Write>(output: &mut W, source: V, destination: V) -> io::Result<()> {
    field(output, Form::Json, "src_addr", source)?;
    field(output, Form::Json, "dst_addr", destination)
}

// The numbers of the VLANs of tags of four bytes each.
#[derive(Clone, Copy)]
struct Vlans<'a>(&'a [u8]);

impl Value for Vlans<'_> {
    fn put<W: Write>(self, output: &mut W, form: Form) -> io::Result<()> {
        match form {
            Form::Lines => put_words(output, self.0),
            Form::Json => put_array(output, self.0),
        }
    }
}

// Prints the numbers as lines have them.
fn put_words<W: Write>(output: &mut W, tags: &[u8]) -> io::Result<()> {
    if tags.len() < TAG_LEN {
        return output.write_all(b"-");
    }
    put_numbers(output, tags)
}

// Prints the numbers as an array.
fn put_array<W: Write>(output: &mut W, tags: &[u8]) -> io::Result<()> {
    output.write_all(b"[")?;
    put_numbers(output, tags)?;
    output.write_all(b"]")
}

// Prints the numbers with commas between them.
fn put_numbers<W: Write>(output: &mut W, tags: &[u8]) -> io::Result<()> {
    let mut left = tags;
    let mut is_first = true;
    while left.len() >= TAG_LEN {
        let (tag, rest) = left.split_at(TAG_LEN);
        put_number_of(output, is_first, tag)?;
        left = rest;
        is_first = false;
    }
    Ok(())
}

// Prints the number of a tag, after a comma where it is not the first.
fn put_number_of<W: Write>(output: &mut W, is_first: bool, tag: &[u8]) -> io::Result<()> {
    put_comma(output, is_first)?;
    show_vlan(output, tag)
}

fn put_comma<W: Write>(output: &mut W, is_first: bool) -> io::Result<()> {
    if is_first {
        return Ok(());
    }
    output.write_all(b",")
}
