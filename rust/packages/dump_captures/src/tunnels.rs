// Made from crates/dump_captures/src/tunnels.rt by rust/erase.
//! The tunnels that a datagram is in, as a heading and as JSON have them.

use crate::path::{Passage, Tunnels};
use control_wire::frames::{Addresses, Tunnel};
use packet_fields::Form;
use packet_fields::entry::{
    close_entry, close_list, first_cell, keyed_cell, open_entry, open_list,
};
use packet_fields::value::Value;
use rattle_std::io;
use rattle_std::io::Write;

// The name of a tunnel.
fn name_of(tunnel: Tunnel) -> &'static str {
    match tunnel {
        Tunnel::Ipv4 => "ipv4",
        Tunnel::Ipv6 => "ipv6",
        Tunnel::Gre => "gre",
    }
}

/// Prints a word for each tunnel, as ` in=gre,192.0.2.1,198.51.100.2`.
pub fn show_tunnels<W: Write>(output: &mut W, tunnels: &Tunnels) -> io::Result<()> {
    match tunnels {
        Tunnels::Zero => Ok(()),
        Tunnels::One(a) => show_tunnel(output, a),
        Tunnels::Two(a, b) => show_two(output, a, b),
        Tunnels::Three(a, b, c) => show_three(output, a, b, c),
        Tunnels::Four(a, b, c, d) => {
            show_tunnel(output, a)?;
            show_three(output, b, c, d)
        }
    }
}

fn show_three<W: Write>(
    output: &mut W,
    first: &Passage,
    second: &Passage,
    third: &Passage,
) -> io::Result<()> {
    show_tunnel(output, first)?;
    show_two(output, second, third)
}

fn show_two<W: Write>(output: &mut W, first: &Passage, second: &Passage) -> io::Result<()> {
    show_tunnel(output, first)?;
    show_tunnel(output, second)
}

fn show_tunnel<W: Write>(output: &mut W, passage: &Passage) -> io::Result<()> {
    output.write_all(b" in=")?;
    name_of(passage.tunnel).put(output, Form::Lines)?;
    match passage.addresses {
        Addresses::V4(source, destination) => show_ends(output, source, destination),
        Addresses::V6(source, destination) => show_ends(output, source, destination),
    }
}

// Prints the source and the destination, each after a comma.
fn show_ends<V: Value, W: Write>(output: &mut W, source: V, destination: V) -> io::Result<()> {
    output.write_all(b",")?;
    source.put(output, Form::Lines)?;
    output.write_all(b",")?;
    destination.put(output, Form::Lines)
}

/// Prints the tunnels as a member of an object, where there are any.
pub fn show_tunnel_members<W: Write>(output: &mut W, tunnels: &Tunnels) -> io::Result<()> {
    match tunnels {
        Tunnels::Zero => Ok(()),
        _ => show_list(output, tunnels),
    }
}

fn show_list<W: Write>(output: &mut W, tunnels: &Tunnels) -> io::Result<()> {
    open_list(output, Form::Json, "tunnels")?;
    show_entries(output, tunnels)?;
    close_list(output, Form::Json)
}

fn show_entries<W: Write>(output: &mut W, tunnels: &Tunnels) -> io::Result<()> {
    match tunnels {
        Tunnels::Zero => Ok(()),
        Tunnels::One(a) => show_entry(output, true, a),
        Tunnels::Two(a, b) => {
            show_entry(output, true, a)?;
            show_entry(output, false, b)
        }
        Tunnels::Three(a, b, c) => {
            show_entry(output, true, a)?;
            show_entry(output, false, b)?;
            show_entry(output, false, c)
        }
        Tunnels::Four(a, b, c, d) => {
            show_entry(output, true, a)?;
            show_entry(output, false, b)?;
            show_entry(output, false, c)?;
            show_entry(output, false, d)
        }
    }
}

// Prints a tunnel as an object.
fn show_entry<W: Write>(output: &mut W, is_first: bool, passage: &Passage) -> io::Result<()> {
    let name = name_of(passage.tunnel);
    match passage.addresses {
        Addresses::V4(source, destination) => {
            show_between(output, is_first, name, source, destination)
        }
        Addresses::V6(source, destination) => {
            show_between(output, is_first, name, source, destination)
        }
    }
}

fn show_between<V: Value, W: Write>(
    output: &mut W,
    is_first: bool,
    name: &str,
    source: V,
    destination: V,
) -> io::Result<()> {
    open_entry(output, Form::Json, is_first, "tunnel", name)?;
    first_cell(output, Form::Json, "src_addr", source)?;
    keyed_cell(output, Form::Json, "dst_addr", destination)?;
    close_entry(output, Form::Json)
}
