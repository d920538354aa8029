// Made from crates/dump_captures/src/summary.rt by rust/erase.
//! The line that sums up a capture.

use crate::counts::{Count, Counts};
use crate::kind::Reason;
use crate::tally::Tally;
use packet_fields::Form;
use packet_fields::value::Value;
use rattle_std::io;
use rattle_std::io::Write;

/// Writes the line, without a line's end, as
/// `5 packets, 2 listed, 1 refused (1 cut), 1 of other protocols, 3 of link 147`.
pub fn write_summary<W: Write>(output: &mut W, tally: &Tally) -> io::Result<()> {
    tally.packets.put(output, Form::Lines)?;
    output.write_all(b" packets, ")?;
    listed(tally).put(output, Form::Lines)?;
    output.write_all(b" listed, ")?;
    all_refused(tally).put(output, Form::Lines)?;
    output.write_all(b" refused")?;
    write_reasons(output, tally)?;
    output.write_all(b", ")?;
    tally.others.all.put(output, Form::Lines)?;
    output.write_all(b" of other protocols")?;
    write_counts(output, &tally.others)?;
    write_further(output, tally.passed, " not chosen")?;
    write_fragments(output, tally)?;
    write_links(output, tally.links.rows.as_slice())?;
    write_further(output, tally.links.further, " of other links")
}

// The number of listed packets.
fn listed(tally: &Tally) -> u64 {
    let mut count: u64 = 0;
    for row in &tally.rows {
        count = count.saturating_add(row.listed);
    }
    count
}

// The number of packets refused for a reason.
fn refused(tally: &Tally, reason: Reason) -> u64 {
    let mut count: u64 = 0;
    for row in &tally.rows {
        count = count.saturating_add(row.refused[reason.place()]);
    }
    count
}

// The number of packets refused for any reason.
fn all_refused(tally: &Tally) -> u64 {
    let mut count: u64 = 0;
    for reason in &Reason::ALL {
        count = count.saturating_add(refused(tally, *reason));
    }
    count
}

// The reasons for which packets were refused, in brackets.
fn write_reasons<W: Write>(output: &mut W, tally: &Tally) -> io::Result<()> {
    let mut is_first = true;
    for reason in &Reason::ALL {
        let count = refused(tally, *reason);
        if count == 0 {
            continue;
        }
        write_reason(output, is_first, count, *reason)?;
        is_first = false;
    }
    if is_first {
        return Ok(());
    }
    output.write_all(b")")
}

// A reason with its number, after the text that precedes the first or a further one.
fn write_reason<W: Write>(
    output: &mut W,
    is_first: bool,
    count: u64,
    reason: Reason,
) -> io::Result<()> {
    write_before(output, is_first)?;
    write_count(output, count, reason)
}

fn write_before<W: Write>(output: &mut W, is_first: bool) -> io::Result<()> {
    if is_first {
        return output.write_all(b" (");
    }
    output.write_all(b", ")
}

fn write_count<W: Write>(output: &mut W, count: u64, reason: Reason) -> io::Result<()> {
    count.put(output, Form::Lines)?;
    output.write_all(b" ")?;
    reason.name().put(output, Form::Lines)
}

// The packets of each category, in brackets.
fn write_counts<W: Write>(output: &mut W, counts: &Counts) -> io::Result<()> {
    let is_first = write_rows(output, counts.rows.as_slice())?;
    write_others(output, is_first, counts.further)?;
    write_end(output, is_first, counts.further)
}

// The packets of each of these rows, without the bracket at the end; returns whether there are none.
fn write_rows<W: Write>(output: &mut W, rows: &[Count]) -> io::Result<bool> {
    let mut is_first = true;
    for row in rows {
        write_row(output, is_first, row)?;
        is_first = false;
    }
    Ok(is_first)
}

fn write_row<W: Write>(output: &mut W, is_first: bool, row: &Count) -> io::Result<()> {
    write_before(output, is_first)?;
    row.packets.put(output, Form::Lines)?;
    output.write_all(b" ")?;
    row.category.write_name(output)
}

// The packets of further categories, where there are any.
fn write_others<W: Write>(output: &mut W, is_first: bool, further: u64) -> io::Result<()> {
    if further == 0 {
        return Ok(());
    }
    write_before(output, is_first)?;
    further.put(output, Form::Lines)?;
    output.write_all(b" further")
}

// The bracket at the end, where something precedes it.
fn write_end<W: Write>(output: &mut W, is_first: bool, further: u64) -> io::Result<()> {
    if is_first && further == 0 {
        return Ok(());
    }
    output.write_all(b")")
}

// The fragments that were kept, where there are any.
fn write_fragments<W: Write>(output: &mut W, tally: &Tally) -> io::Result<()> {
    if tally.fragments.all == 0 {
        return Ok(());
    }
    output.write_all(b", ")?;
    tally.fragments.all.put(output, Form::Lines)?;
    output.write_all(b" fragments")?;
    write_counts(output, &tally.fragments)?;
    write_further(output, tally.joined, " of them put together")
}

// The number of frames of each unsupported link.
fn write_links<W: Write>(output: &mut W, links: &[Count]) -> io::Result<()> {
    for link in links {
        write_link(output, link)?;
    }
    Ok(())
}

fn write_link<W: Write>(output: &mut W, link: &Count) -> io::Result<()> {
    output.write_all(b", ")?;
    link.packets.put(output, Form::Lines)?;
    output.write_all(b" of link ")?;
    link.category.write_name(output)
}

// A further number and what it counts, where it is not 0.
fn write_further<W: Write>(output: &mut W, count: u64, what: &str) -> io::Result<()> {
    if count == 0 {
        return Ok(());
    }
    output.write_all(b", ")?;
    count.put(output, Form::Lines)?;
    output.write_all(what.as_bytes())
}
