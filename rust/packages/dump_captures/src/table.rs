// Made from crates/dump_captures/src/table.rt by rust/erase.
//! The table of counts.

use crate::kind::{Kind, Reason};
use crate::options::Only;
use crate::tally::{Row, Tally};
use packet_fields::Form;
use packet_fields::value::Value;
use rattle_std::io;
use rattle_std::io::Write;

/// Prints the table of counts: a row for each kind of packets that may be chosen.
pub fn show_table<W: Write>(output: &mut W, only: &Only, tally: &Tally) -> io::Result<()> {
    show_head(output)?;
    show_rows(output, only, tally)
}

// Prints the names of the columns.
fn show_head<W: Write>(output: &mut W) -> io::Result<()> {
    output.write_all(b"kind\tlisted")?;
    show_reasons(output)?;
    output.write_all(b"\toctets\n")
}

// Prints the names of the reasons, each after a tab.
fn show_reasons<W: Write>(output: &mut W) -> io::Result<()> {
    for reason in &Reason::ALL {
        output.write_all(b"\t")?;
        reason.name().put(output, Form::Lines)?;
    }
    Ok(())
}

// Prints the rows of all kinds.
fn show_rows<W: Write>(output: &mut W, only: &Only, tally: &Tally) -> io::Result<()> {
    for kind in &Kind::ALL {
        show_chosen(output, only, tally, *kind)?;
    }
    Ok(())
}

// Prints the row of a kind, where packets of it may be chosen.
fn show_chosen<W: Write>(output: &mut W, only: &Only, tally: &Tally, kind: Kind) -> io::Result<()> {
    if !only.kinds[kind.place()] && !only.hop_by_hop {
        return Ok(());
    }
    show_row(output, kind, &tally.rows[kind.place()])
}

fn show_row<W: Write>(output: &mut W, kind: Kind, row: &Row) -> io::Result<()> {
    kind.name().put(output, Form::Lines)?;
    output.write_all(b"\t")?;
    row.listed.put(output, Form::Lines)?;
    show_numbers(output, &row.refused)?;
    output.write_all(b"\t")?;
    row.octets.put(output, Form::Lines)?;
    output.write_all(b"\n")
}

// Prints numbers, each after a tab.
fn show_numbers<W: Write>(output: &mut W, numbers: &[u64]) -> io::Result<()> {
    for number in numbers {
        output.write_all(b"\t")?;
        number.put(output, Form::Lines)?;
    }
    Ok(())
}
