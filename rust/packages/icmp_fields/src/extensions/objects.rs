// Made from crates/icmp_fields/src/extensions/objects.rt by rust/erase.
//! The objects of an extension structure (RFC 4884 section 8).

use super::words::{Why, Word, role_name};
use crate::queries::show_spare;
use crate::texts::Name;
use control_wire::extensions::{
    InterfaceInformation, LabelEntry, LabelStack, LabelStackIterator, Object, ObjectRefusal,
    interface, mpls,
};
use packet_fields::Form;
use packet_fields::entry::{close_entry, first_cell, hidden_number, keyed_cell, open_entry};
use packet_fields::label::Label;
use packet_fields::names::{Row, name_in};
use packet_fields::texts::Address;
use rattle_std::io;
use rattle_std::io::Write;

// IANA's registry of the classes of objects.
const CLASSES: &[Row] = &[
    (1, "mpls_label_stack"),
    (2, "interface_information"),
    (3, "interface_identification"),
    (4, "extended_information"),
];

// The bytes of an MTU.
const MTU_LEN: usize = 4;

// Prints the objects in turn. Where none begins, the octets that are left are the last entry, which says why.
pub(super) fn show_objects<W: Write>(output: &mut W, form: Form, octets: &[u8]) -> io::Result<()> {
    let mut rest = octets;
    let mut is_first = true;
    while !rest.is_empty() {
        match Object::parse(rest) {
            Ok((object, behind)) => {
                show_object(output, form, is_first, &object)?;
                rest = behind;
            }
            Err(refusal) => return show_broken(output, form, is_first, rest, refusal),
        }
        is_first = false;
    }
    Ok(())
}

// Prints octets that begin no object, and why.
fn show_broken<W: Write>(
    output: &mut W,
    form: Form,
    is_first: bool,
    octets: &[u8],
    refusal: ObjectRefusal,
) -> io::Result<()> {
    open_entry(output, form, is_first, "object", "object")?;
    first_cell(output, form, "data", octets)?;
    keyed_cell(output, form, "refused", Word(Why::Object(refusal)))?;
    close_entry(output, form)
}

// Prints an object by its class.
fn show_object<W: Write>(
    output: &mut W,
    form: Form,
    is_first: bool,
    object: &Object<'_>,
) -> io::Result<()> {
    if has_labels(object) {
        return show_stack(output, form, is_first, object);
    }
    if object.class == interface::CLASS {
        return show_interface(output, form, is_first, object);
    }
    show_plain(output, form, is_first, object, None)
}

// Whether an object is one of a stack of labels.
fn has_labels(object: &Object<'_>) -> bool {
    object.class == mpls::CLASS && object.c_type == mpls::C_TYPE
}

// Prints a stack of labels, an entry for each of them.
fn show_stack<W: Write>(
    output: &mut W,
    form: Form,
    is_first: bool,
    object: &Object<'_>,
) -> io::Result<()> {
    let stack = match LabelStack::parse(object.payload) {
        Ok(stack) => stack,
        Err(refusal) => {
            return show_plain(output, form, is_first, object, Some(Why::Labels(refusal)));
        }
    };
    let mut entries = stack.iter();
    let Some(first) = entries.next() else {
        return show_plain(output, form, is_first, object, None);
    };
    show_label(output, form, is_first, first)?;
    show_labels(output, form, &mut entries)
}

// Prints labels behind another.
fn show_labels<W: Write>(
    output: &mut W,
    form: Form,
    entries: &mut LabelStackIterator<'_>,
) -> io::Result<()> {
    while let Some(entry) = entries.next() {
        show_label(output, form, false, entry)?;
    }
    Ok(())
}

// Prints a label.
fn show_label<W: Write>(
    output: &mut W,
    form: Form,
    is_first: bool,
    label: LabelEntry,
) -> io::Result<()> {
    open_entry(output, form, is_first, "object", "mpls_label")?;
    first_cell(output, form, "label", label.label)?;
    keyed_cell(output, form, "traffic_class", label.traffic_class)?;
    keyed_cell(output, form, "bottom", label.bottom)?;
    keyed_cell(output, form, "ttl", label.ttl)?;
    hidden_number(output, form, "class", mpls::CLASS as u64)?;
    hidden_number(output, form, "c_type", mpls::C_TYPE as u64)?;
    close_entry(output, form)
}

// Prints what an object says of an interface.
fn show_interface<W: Write>(
    output: &mut W,
    form: Form,
    is_first: bool,
    object: &Object<'_>,
) -> io::Result<()> {
    match InterfaceInformation::parse(object.c_type, object.payload) {
        Ok(read) => {
            let behind = behind_parts(object, &read);
            show_information(output, form, is_first, object.c_type, &read, behind)
        }
        Err(refusal) => show_plain(
            output,
            form,
            is_first,
            object,
            Some(Why::Interface(refusal)),
        ),
    }
}

// The octets of an object behind the parts that were read. A name may have more zeros behind it than it needs, so the
// length in front of it counts.
fn behind_parts<'a>(object: &Object<'a>, read: &InterfaceInformation<'_>) -> &'a [u8] {
    let front = InterfaceInformation {
        name: None,
        mtu: None,
        ..*read
    };
    let (_, behind) = object.payload.split_at(front.buffer_len());
    behind_mtu(read.mtu, behind_name(read.name, behind))
}

// What follows a name, where one is read in front, and its padding.
fn behind_name<'a>(name: Option<&[u8]>, octets: &'a [u8]) -> &'a [u8] {
    match name {
        Some(_) => &octets[octets[0] as usize..],
        None => octets,
    }
}

// What follows an MTU, where one is read in front.
fn behind_mtu<'a>(mtu: Option<u32>, octets: &'a [u8]) -> &'a [u8] {
    match mtu {
        Some(_) => &octets[MTU_LEN..],
        None => octets,
    }
}

// Prints an interface with these octets behind its parts.
fn show_information<W: Write>(
    output: &mut W,
    form: Form,
    is_first: bool,
    c_type: u8,
    read: &InterfaceInformation<'_>,
    behind: &[u8],
) -> io::Result<()> {
    open_entry(output, form, is_first, "object", "interface_information")?;
    first_cell(output, form, "role", role_name(read.role))?;
    show_parts(output, form, read)?;
    hidden_number(output, form, "class", interface::CLASS as u64)?;
    hidden_number(output, form, "c_type", c_type as u64)?;
    show_spare(output, form, behind)?;
    close_entry(output, form)
}

// Prints the parts, each of which may be missing.
fn show_parts<W: Write>(
    output: &mut W,
    form: Form,
    read: &InterfaceInformation<'_>,
) -> io::Result<()> {
    keyed_cell(output, form, "index", read.index)?;
    keyed_cell(output, form, "addr", address_of(read))?;
    keyed_cell(output, form, "name", name_of(read))?;
    keyed_cell(output, form, "mtu", read.mtu)
}

// The address, where there is one.
fn address_of<'a>(read: &InterfaceInformation<'a>) -> Option<Address<'a>> {
    match read.address {
        Some(address) => Some(Address(address.octets)),
        None => None,
    }
}

// The name, where there is one.
fn name_of<'a>(read: &InterfaceInformation<'a>) -> Option<Name<'a>> {
    match read.name {
        Some(name) => Some(Name(name)),
        None => None,
    }
}

// Prints an object by its octets, and why it is refused where it is.
fn show_plain<W: Write>(
    output: &mut W,
    form: Form,
    is_first: bool,
    object: &Object<'_>,
    why: Option<Why>,
) -> io::Result<()> {
    open_entry(output, form, is_first, "object", label_of(object.class))?;
    first_cell(output, form, "data", object.payload)?;
    hidden_number(output, form, "class", object.class as u64)?;
    keyed_cell(output, form, "c_type", object.c_type)?;
    show_why(output, form, why)?;
    close_entry(output, form)
}

fn show_why<W: Write>(output: &mut W, form: Form, why: Option<Why>) -> io::Result<()> {
    match why {
        Some(why) => keyed_cell(output, form, "refused", Word(why)),
        None => Ok(()),
    }
}

// What an object of this class is called.
fn label_of(class: u8) -> Label<'static> {
    Label {
        name: name_in(CLASSES, class as u16),
        kind: "object",
        number: class,
    }
}
