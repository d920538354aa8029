// Made from crates/extension_wire/src/structure.rt by rust/erase.
//! The extension structure: behind what an error quotes (RFC 4884 section 7), and all that an extended echo request has
//! behind its header (RFC 8335 section 2).

use crate::extensions::object::{Object, Objects};
use crate::extensions::refusal::StructureRefusal;
use crate::wirebase::{ByteWriter, Octets, checksum};

// The fields of the structure's header.
pub(crate) mod field {
    use crate::wirebase::Field;

    pub const VERSION: Field = 0..1;

    pub const CHECKSUM: Field = 2..4;
}

// The bytes of the header.
pub(crate) const HEADER_LEN: usize = 4;

// The version, in the upper four bits of the first byte.
pub(crate) const VERSION: u8 = 2;

/// The objects of the extension structure that is all of these octets. The reserved bits are not looked at; the
/// checksum is verified unless it is zero, which says that none was computed. The objects are not read yet, and there
/// may be none.
pub fn parse(octets: &[u8]) -> Result<Objects<'_>, StructureRefusal> {
    if octets.len() < HEADER_LEN {
        return Err(StructureRefusal::Short);
    }
    let version = version(octets);
    if version != VERSION {
        return Err(StructureRefusal::Version(version));
    }
    if octets.u16_at(field::CHECKSUM) != 0 && !checksum::is_good(octets, 0) {
        return Err(StructureRefusal::Checksum);
    }
    Ok(Objects::new(&octets[HEADER_LEN..]))
}

// The version.
pub(crate) fn version(octets: &[u8]) -> u8 {
    octets.u8_at(field::VERSION) / 16
}

/// The bytes of a structure with these objects. Requires that the objects have fewer than 65,536.
///
/// # Panics
///
/// May panic where what is asked for above does not hold.
pub fn buffer_len(objects: &[Object<'_>]) -> usize {
    let mut len = HEADER_LEN;
    for object in objects {
        len += object.buffer_len();
    }
    len
}

/// Writes a structure with these objects, and the checksum of all of it, over the octets. [`parse`] then gives the
/// objects, each as it is where it is canonical. Requires exactly `buffer_len` bytes, and objects of fewer than 65,536.
///
/// # Panics
///
/// May panic where what is asked for above does not hold.
pub fn emit(objects: &[Object<'_>], octets: &mut [u8]) {
    write_fields(octets, objects);
    checksum::fill(octets, field::CHECKSUM, 0);
}

// Writes a structure over the octets, with a checksum of zero.
fn write_fields(octets: &mut [u8], objects: &[Object<'_>]) {
    let mut w = ByteWriter::new(octets);
    w.put_u8(VERSION * 16);
    w.put_u8(0);
    w.put_u16(0);
    put_objects(&mut w, objects);
}

// Writes objects one after another.
fn put_objects(w: &mut ByteWriter<'_>, objects: &[Object<'_>]) {
    for object in objects {
        put_object(w, object);
    }
}

// Writes an object.
fn put_object(w: &mut ByteWriter<'_>, object: &Object<'_>) {
    object.put(w);
}
