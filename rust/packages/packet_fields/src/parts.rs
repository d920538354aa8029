// Made from crates/packet_fields/src/parts.rt by rust/erase.
//! Octets that are cut into parts, each of which is printed as an entry of a list.

use crate::entry::{close_list, open_list};
use crate::form::Form;
use rattle_std::io;
use rattle_std::io::Write;

/// A kind of parts.
pub trait Part {
    /// The number of octets of the first part, 1 or more. Requires an octet.
    fn len_of(octets: &[u8]) -> usize;

    /// Prints a part. Requires an octet.
    fn show<W: Write>(output: &mut W, form: Form, is_first: bool, part: &[u8]) -> io::Result<()>;
}

/// Prints the parts of some octets as a list, `count` of them or as many as there are.
pub fn show_parts<P: Part, W: Write>(
    output: &mut W,
    form: Form,
    key: &str,
    count: usize,
    octets: &[u8],
) -> io::Result<()> {
    open_list(output, form, key)?;
    show_each::<P, W>(output, form, count, octets)?;
    close_list(output, form)
}

// Prints the parts.
fn show_each<P: Part, W: Write>(
    output: &mut W,
    form: Form,
    count: usize,
    octets: &[u8],
) -> io::Result<()> {
    let mut rest = octets;
    let mut left = count;
    let mut is_first = true;
    while left > 0 && !rest.is_empty() {
        let (part, others) = rest.split_at(P::len_of(rest));
        P::show(output, form, is_first, part)?;
        rest = others;
        left -= 1;
        is_first = false;
    }
    Ok(())
}

/// What stands behind `count` parts of some octets.
pub fn behind_parts<P: Part>(count: usize, octets: &[u8]) -> &[u8] {
    let mut rest = octets;
    let mut left = count;
    while left > 0 && !rest.is_empty() {
        let (_, others) = rest.split_at(P::len_of(rest));
        rest = others;
        left -= 1;
    }
    rest
}
