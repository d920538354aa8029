// Made from crates/record_wire/src/text/opt.rt by rust/erase.
//! OPT records, a line each.

use crate::record::edns::{Edns, EdnsOption, EdnsOptions, OptionRefusal};
use core::{fmt, result};

/// An OPT record as a comment of a zone file, in the manner of dig.
#[derive(Clone, Copy)]
pub(super) struct Comment<'a>(pub(super) Edns<'a>);

impl fmt::Display for Comment<'_> {
    fn fmt(&self, f: &mut fmt::Formatter<'_>) -> fmt::Result {
        let edns = self.0;
        let flags = FlagsWord(edns.flags);
        let size = edns.payload_size;
        let rcode = edns.extended_rcode;
        let options = Options(edns.options);
        write!(
            f,
            "; EDNS: version: {}, flags: {flags}; udp: {size}; extended_rcode: {rcode}{options}",
            edns.version
        )
    }
}

// The flags: DO alone by its name, others as a number.
#[derive(Clone, Copy)]
struct FlagsWord(u16);

impl fmt::Display for FlagsWord {
    fn fmt(&self, f: &mut fmt::Formatter<'_>) -> fmt::Result {
        if self.0 == 0x8000 {
            return f.write_str("do");
        }
        write!(f, "{}", self.0)
    }
}

// Options, each after a semicolon, up to one that is cut.
#[derive(Clone, Copy)]
struct Options<'a>(&'a [u8]);

impl fmt::Display for Options<'_> {
    fn fmt(&self, f: &mut fmt::Formatter<'_>) -> fmt::Result {
        fmt_options(f, EdnsOptions::new(self.0))
    }
}

// An option, or why the octets do not begin with one.
#[derive(Clone, Copy)]
struct Answer<'a>(result::Result<EdnsOption<'a>, OptionRefusal>);

impl fmt::Display for Answer<'_> {
    fn fmt(&self, f: &mut fmt::Formatter<'_>) -> fmt::Result {
        match self.0 {
            Ok(option) => write!(f, "{option}"),
            Err(refusal) => write!(f, "{refusal}"),
        }
    }
}

// Writes each option that is left.
fn fmt_options(f: &mut fmt::Formatter<'_>, mut options: EdnsOptions<'_>) -> fmt::Result {
    while let Some(answer) = options.next() {
        write!(f, "; {}", Answer(answer))?;
    }
    Ok(())
}
