// Made from crates/packet_stats/src/show.rt by rust/erase.
//! A page of what was counted.

use crate::entries::show_row;
use crate::row::Row;
use crate::stats::Stats;
use crate::table::Table;
use packet_fields::Form;
use packet_fields::entry::{close_list, open_list};
use packet_fields::field::field;
use rattle_std::io;
use rattle_std::io::Write;

/// Prints a page of what was counted: a list for each kind of subjects. Names, outcomes and servers of DNS stand with
/// the most frequent first, and of those that are equally frequent the first by its octets; the others stand in the
/// order of their octets, so that the neighbors of one address stand together. Behind a list of which the table was
/// full stands how many messages spoke of what has no row. Of a server's answers the median and the 99th percentile of
/// their times are printed, by the nearest rank: the time in that place of the ascending order where the place is that
/// part of their number, rounded up.
pub fn show_stats<W: Write>(output: &mut W, form: Form, stats: &mut Stats) -> io::Result<()> {
    stats.sort();
    show_page(output, form, stats)
}

// Prints a list for each table, in the order of its rows.
fn show_page<W: Write>(output: &mut W, form: Form, stats: &Stats) -> io::Result<()> {
    show_dns(output, form, stats)?;
    show_dhcp(output, form, stats)?;
    show_groups(output, form, stats)?;
    show_neighbors(output, form, stats)
}

// Prints clients of DHCP, and their leases.
fn show_dhcp<W: Write>(output: &mut W, form: Form, stats: &Stats) -> io::Result<()> {
    show_table(
        output,
        form,
        "clients",
        "clients_not_counted",
        &stats.clients,
    )?;
    show_table(output, form, "leases", "leases_not_counted", &stats.leases)
}

// Prints members of groups, and the sources that they want or exclude.
fn show_groups<W: Write>(output: &mut W, form: Form, stats: &Stats) -> io::Result<()> {
    show_table(
        output,
        form,
        "members",
        "members_not_counted",
        &stats.members,
    )?;
    show_table(
        output,
        form,
        "sources",
        "sources_not_counted",
        &stats.sources,
    )
}

// Prints neighbors, and routers with their prefixes.
fn show_neighbors<W: Write>(output: &mut W, form: Form, stats: &Stats) -> io::Result<()> {
    show_table(
        output,
        form,
        "neighbors",
        "neighbors_not_counted",
        &stats.neighbors,
    )?;
    show_table(
        output,
        form,
        "routers",
        "routers_not_counted",
        &stats.routers,
    )?;
    show_table(
        output,
        form,
        "prefixes",
        "prefixes_not_counted",
        &stats.prefixes,
    )
}

// Prints names, outcomes and servers of DNS.
fn show_dns<W: Write>(output: &mut W, form: Form, stats: &Stats) -> io::Result<()> {
    show_table(
        output,
        form,
        "questions",
        "questions_not_counted",
        &stats.questions,
    )?;
    show_table(output, form, "rcodes", "rcodes_not_counted", &stats.rcodes)?;
    show_table(
        output,
        form,
        "servers",
        "servers_not_counted",
        &stats.servers,
    )
}

fn show_table<W: Write>(
    output: &mut W,
    form: Form,
    key: &str,
    overlooked_key: &str,
    table: &Table,
) -> io::Result<()> {
    show_list(output, form, key, &table.rows)?;
    show_overlooked(output, form, overlooked_key, table.overlooked)
}

fn show_overlooked<W: Write>(
    output: &mut W,
    form: Form,
    key: &str,
    overlooked: u64,
) -> io::Result<()> {
    if overlooked == 0 {
        return Ok(());
    }
    field(output, form, key, overlooked)
}

fn show_list<W: Write>(output: &mut W, form: Form, key: &str, rows: &[Row]) -> io::Result<()> {
    open_list(output, form, key)?;
    show_rows(output, form, rows)?;
    close_list(output, form)
}

fn show_rows<W: Write>(output: &mut W, form: Form, rows: &[Row]) -> io::Result<()> {
    for place in 0..rows.len() {
        show_row(output, form, place == 0, &rows[place])?;
    }
    Ok(())
}
