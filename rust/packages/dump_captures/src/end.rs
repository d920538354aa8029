// Made from crates/dump_captures/src/end.rt by rust/erase.
//! What is printed behind the packets of a capture.

use crate::options::Options;
use crate::pairing::show_unanswered;
use crate::session::Session;
use crate::statistics::show_statistics;
use rattle_std::io;
use rattle_std::io::Write;

/// Prints what got no answer, and the page of statistics, where they are asked for.
pub(crate) fn show_end<W: Write>(
    output: &mut W,
    options: &Options,
    file: Option<&str>,
    session: &mut Session,
) -> io::Result<()> {
    show_unanswered(output, options, file, &session.pairs)?;
    show_statistics(output, options, file, &mut session.stats)
}
