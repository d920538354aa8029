// Made from crates/icmp_fields/src/extensions.rt by rust/erase.
//! Extensions of ICMP errors (RFC 4884).

mod objects;
pub(crate) mod words;

use self::objects::show_objects;
use self::words::{Why, Word};
use control_wire::extensions::{Parts, SplitRefusal, StructureRefusal, structure};
use packet_fields::Form;
use packet_fields::entry::{close_list, open_list};
use packet_fields::field::field;
use rattle_std::io;
use rattle_std::io::Write;

// The bytes of a structure's header.
const HEADER_LEN: usize = 4;

// What is quoted: all octets where extensions are not told apart from it.
pub(crate) fn quoted_of<'a>(parts: &Result<Parts<'a>, SplitRefusal>, octets: &'a [u8]) -> &'a [u8] {
    match parts {
        Ok(parts) => parts.quoted,
        Err(_) => octets,
    }
}

// Prints the extensions behind what is quoted, or why they are not told apart. Of a message that is not whole, their
// checksum is not verified.
pub(crate) fn show_extensions<W: Write>(
    output: &mut W,
    form: Form,
    parts: &Result<Parts<'_>, SplitRefusal>,
    is_whole: bool,
) -> io::Result<()> {
    match parts {
        Ok(parts) => show_any(output, form, parts.extensions, is_whole),
        Err(refusal) => show_refused(output, form, Why::Split(*refusal)),
    }
}

// Prints why extensions are not read.
fn show_refused<W: Write>(output: &mut W, form: Form, why: Why) -> io::Result<()> {
    field(output, form, "extensions_refused", Word(why))
}

// Prints extensions, where there are any.
fn show_any<W: Write>(
    output: &mut W,
    form: Form,
    extensions: Option<&[u8]>,
    is_whole: bool,
) -> io::Result<()> {
    match extensions {
        Some(octets) => show_structure(output, form, octets, is_whole),
        None => Ok(()),
    }
}

// Prints a structure by its objects, or why it is refused, and its octets.
fn show_structure<W: Write>(
    output: &mut W,
    form: Form,
    octets: &[u8],
    is_whole: bool,
) -> io::Result<()> {
    if let Some(refusal) = wrong_header(octets, is_whole) {
        return show_refused_structure(output, form, Why::Structure(refusal), octets);
    }
    if lacks_objects(octets, is_whole) {
        return show_refused_structure(output, form, Why::NoObject, octets);
    }
    let (_, inside) = octets.split_at(HEADER_LEN);
    show_list(output, form, inside)
}

// Whether a structure ends behind its header, and the capture did not cut it there.
fn lacks_objects(octets: &[u8], is_whole: bool) -> bool {
    is_whole && octets.len() == HEADER_LEN
}

/// Why a structure is refused, where it is; for its checksum only where the message is whole.
pub(crate) fn wrong_header(octets: &[u8], is_whole: bool) -> Option<StructureRefusal> {
    match structure::parse(octets) {
        Err(refusal) if is_whole || refusal != StructureRefusal::Checksum => Some(refusal),
        _ => None,
    }
}

fn show_refused_structure<W: Write>(
    output: &mut W,
    form: Form,
    why: Why,
    octets: &[u8],
) -> io::Result<()> {
    show_refused(output, form, why)?;
    field(output, form, "extensions_octets", octets)
}

// Prints the list of the objects in these octets.
fn show_list<W: Write>(output: &mut W, form: Form, octets: &[u8]) -> io::Result<()> {
    open_list(output, form, "extensions")?;
    show_objects(output, form, octets)?;
    close_list(output, form)
}
