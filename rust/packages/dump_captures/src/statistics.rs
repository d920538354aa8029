// Made from crates/dump_captures/src/statistics.rt by rust/erase.
//! The page of what the messages of a capture say.

use crate::objects::{close_object, open_summary};
use crate::options::Options;
use packet_fields::Form;
use packet_stats::{Stats, show_stats};
use rattle_std::io;
use rattle_std::io::Write;

/// Prints the page, where it is asked for.
pub(crate) fn show_statistics<W: Write>(
    output: &mut W,
    options: &Options,
    file: Option<&str>,
    stats: &mut Stats,
) -> io::Result<()> {
    if options.stats && options.prints {
        return show_page(output, options, file, stats);
    }
    Ok(())
}

fn show_page<W: Write>(
    output: &mut W,
    options: &Options,
    file: Option<&str>,
    stats: &mut Stats,
) -> io::Result<()> {
    match options.form {
        Form::Json => {
            open_summary(output, "statistics", file)?;
            show_stats(output, Form::Json, stats)?;
            close_object(output)
        }
        Form::Lines => {
            output.write_all(b"statistics\n")?;
            show_stats(output, Form::Lines, stats)
        }
    }
}
