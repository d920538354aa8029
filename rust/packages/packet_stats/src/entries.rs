// Made from crates/packet_stats/src/entries.rt by rust/erase.
//! Rows as entries of the lists of a page.

use crate::row::Row;
use crate::subject::{FilterMode, IpAddress, Source, Subject};
use crate::words::{NameWord, RcodeWord, TypeWord};
use control_wire::dns::Type;
use control_wire::record::Name;
use neighbor_fields::ndisc::options::Prefix;
use packet_fields::Form;
use packet_fields::entry::{close_entry, first_cell, keyed_cell, open_entry};
use packet_fields::texts::Address;
use packet_fields::value::{Colons, Seconds};
use packet_pairs::Nanoseconds;
use rattle_std::io;
use rattle_std::io::Write;

// Prints a row as an entry of a list.
pub(crate) fn show_row<W: Write>(
    output: &mut W,
    form: Form,
    is_first: bool,
    row: &Row,
) -> io::Result<()> {
    match &row.subject {
        Subject::Question(name, type_) => show_question(output, form, is_first, name, *type_, row),
        Subject::Rcode(rcode) => show_rcode(output, form, is_first, *rcode, row),
        Subject::Server(server) => show_host(output, form, is_first, "server", server, row),
        Subject::Client(client) => show_client(output, form, is_first, client.as_slice(), row),
        Subject::Lease(address, client, time) => {
            let address = IpAddress::V4(*address);
            show_lease(
                output,
                form,
                is_first,
                &address,
                client.as_slice(),
                *time,
                row,
            )
        }
        Subject::Member(group, host) => show_member(output, form, is_first, group, host, row),
        Subject::Source(source) => show_source(output, form, is_first, source, row),
        Subject::Neighbor(address, link) => {
            show_neighbor(output, form, is_first, &IpAddress::V6(*address), link, row)
        }
        Subject::Router(router) => show_host(
            output,
            form,
            is_first,
            "router",
            &IpAddress::V6(*router),
            row,
        ),
        Subject::Prefix(prefix, len, router) => {
            let router = IpAddress::V6(*router);
            show_prefix(output, form, is_first, &prefix.octets(), *len, &router, row)
        }
    }
}

fn show_question<W: Write>(
    output: &mut W,
    form: Form,
    is_first: bool,
    name: &Name,
    type_: Type,
    row: &Row,
) -> io::Result<()> {
    open_entry(output, form, is_first, "kind", "question")?;
    first_cell(output, form, "name", NameWord(name))?;
    keyed_cell(output, form, "type", TypeWord(type_))?;
    show_cells(output, form, row)?;
    close_entry(output, form)
}

fn show_rcode<W: Write>(
    output: &mut W,
    form: Form,
    is_first: bool,
    rcode: u16,
    row: &Row,
) -> io::Result<()> {
    open_entry(output, form, is_first, "kind", "rcode")?;
    first_cell(output, form, "rcode", RcodeWord(rcode))?;
    show_cells(output, form, row)?;
    close_entry(output, form)
}

// Prints a host that is counted by its address alone.
fn show_host<W: Write>(
    output: &mut W,
    form: Form,
    is_first: bool,
    kind: &str,
    address: &IpAddress,
    row: &Row,
) -> io::Result<()> {
    open_entry(output, form, is_first, "kind", kind)?;
    show_address(output, form, "addr", address)?;
    show_cells(output, form, row)?;
    close_entry(output, form)
}

fn show_client<W: Write>(
    output: &mut W,
    form: Form,
    is_first: bool,
    hardware: &[u8],
    row: &Row,
) -> io::Result<()> {
    open_entry(output, form, is_first, "kind", "client")?;
    first_cell(output, form, "hardware", Colons(hardware))?;
    show_cells(output, form, row)?;
    close_entry(output, form)
}

fn show_lease<W: Write>(
    output: &mut W,
    form: Form,
    is_first: bool,
    address: &IpAddress,
    hardware: &[u8],
    time: Option<u32>,
    row: &Row,
) -> io::Result<()> {
    open_entry(output, form, is_first, "kind", "lease")?;
    show_address(output, form, "addr", address)?;
    keyed_cell(output, form, "client", Colons(hardware))?;
    show_lease_time(output, form, time)?;
    show_cells(output, form, row)?;
    close_entry(output, form)
}

// Prints the time of a lease, where it is told.
fn show_lease_time<W: Write>(output: &mut W, form: Form, time: Option<u32>) -> io::Result<()> {
    match time {
        Some(seconds) => keyed_cell(output, form, "time", Seconds(seconds)),
        None => Ok(()),
    }
}

fn show_member<W: Write>(
    output: &mut W,
    form: Form,
    is_first: bool,
    group: &IpAddress,
    host: &IpAddress,
    row: &Row,
) -> io::Result<()> {
    open_entry(output, form, is_first, "kind", "group")?;
    show_address(output, form, "addr", group)?;
    show_keyed_address(output, form, "member", host)?;
    show_cells(output, form, row)?;
    close_entry(output, form)
}

fn show_source<W: Write>(
    output: &mut W,
    form: Form,
    is_first: bool,
    source: &Source,
    row: &Row,
) -> io::Result<()> {
    open_entry(output, form, is_first, "kind", "group")?;
    show_address(output, form, "addr", &source.group)?;
    show_keyed_address(output, form, "member", &source.host)?;
    show_keyed_address(output, form, mode_key(source.mode), &source.address)?;
    show_cells(output, form, row)?;
    close_entry(output, form)
}

// The key of a source that a member wants, or of one that it excludes.
fn mode_key(mode: FilterMode) -> &'static str {
    match mode {
        FilterMode::Include => "source",
        FilterMode::Exclude => "excluded",
    }
}

fn show_neighbor<W: Write>(
    output: &mut W,
    form: Form,
    is_first: bool,
    address: &IpAddress,
    link: &[u8],
    row: &Row,
) -> io::Result<()> {
    open_entry(output, form, is_first, "kind", "neighbor")?;
    show_address(output, form, "addr", address)?;
    keyed_cell(output, form, "link", Colons(link))?;
    show_cells(output, form, row)?;
    close_entry(output, form)
}

fn show_prefix<W: Write>(
    output: &mut W,
    form: Form,
    is_first: bool,
    address: &[u8],
    len: u8,
    router: &IpAddress,
    row: &Row,
) -> io::Result<()> {
    let prefix = Prefix {
        address: Address(address),
        len,
    };
    open_entry(output, form, is_first, "kind", "prefix")?;
    first_cell(output, form, "prefix", prefix)?;
    show_keyed_address(output, form, "router", router)?;
    show_cells(output, form, row)?;
    close_entry(output, form)
}

// Prints an address behind its key.
fn show_keyed_address<W: Write>(
    output: &mut W,
    form: Form,
    key: &str,
    address: &IpAddress,
) -> io::Result<()> {
    match address {
        IpAddress::V4(address) => keyed_cell(output, form, key, Address(&address.octets())),
        IpAddress::V6(address) => keyed_cell(output, form, key, Address(&address.octets())),
    }
}

// Prints an address as the first value of an entry.
fn show_address<W: Write>(
    output: &mut W,
    form: Form,
    key: &str,
    address: &IpAddress,
) -> io::Result<()> {
    match address {
        IpAddress::V4(address) => first_cell(output, form, key, Address(&address.octets())),
        IpAddress::V6(address) => first_cell(output, form, key, Address(&address.octets())),
    }
}

// Prints how many messages there were, and the times of answers.
fn show_cells<W: Write>(output: &mut W, form: Form, row: &Row) -> io::Result<()> {
    keyed_cell(output, form, "count", row.count)?;
    show_times(output, form, row)
}

fn show_times<W: Write>(output: &mut W, form: Form, row: &Row) -> io::Result<()> {
    show_some(output, form, "times", row.times() as u64)?;
    show_time(output, form, "median", "median_ns", row.percentile(50))?;
    show_time(
        output,
        form,
        "percentile_99",
        "percentile_99_ns",
        row.percentile(99),
    )?;
    show_some(output, form, "times_not_kept", row.unkept)
}

// Prints a time, where there is one.
fn show_time<W: Write>(
    output: &mut W,
    form: Form,
    key: &str,
    json_key: &str,
    time: Option<u64>,
) -> io::Result<()> {
    match (form, time) {
        (_, None) => Ok(()),
        (Form::Lines, Some(time)) => keyed_cell(output, form, key, Nanoseconds(time)),
        (Form::Json, Some(time)) => keyed_cell(output, form, json_key, time),
    }
}

// Prints a number that is not 0.
fn show_some<W: Write>(output: &mut W, form: Form, key: &str, number: u64) -> io::Result<()> {
    if number == 0 {
        return Ok(());
    }
    keyed_cell(output, form, key, number)
}
