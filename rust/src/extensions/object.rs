// Made from crates/extension_wire/src/object.rt by rust/erase.
//! The objects of an extension structure (RFC 4884 section 8).

use crate::extensions::refusal::ObjectRefusal;
use crate::wirebase::{ByteWriter, Octets};
use core::fmt;

// The fields of an object's header.
mod field {
    use crate::wirebase::Field;

    pub const LENGTH: Field = 0..2;

    pub const CLASS: Field = 2..3;

    pub const C_TYPE: Field = 3..4;

    pub const HEADER_END: usize = 4;
}

/// An object of an extension structure.
#[derive(Debug, PartialEq, Eq, Clone, Copy)]
pub struct Object<'a> {
    /// What kind of object it is, by IANA's registry of classes: 1 is a stack of MPLS labels, 2 an interface.
    pub class: u8,
    /// Which form of its class it has.
    pub c_type: u8,
    /// The bytes behind the header of 4. RFC 4884 has objects of whole 32 bit words, but asks no reader to refuse
    /// others; what is written here is written as it is.
    pub payload: &'a [u8],
}

impl<'a> Object<'a> {
    /// The object at the front of the octets, and those behind it. Its length counts its header, so it is at least 4,
    /// and at most the number of octets.
    pub fn parse(octets: &'a [u8]) -> Result<(Object<'a>, &'a [u8]), ObjectRefusal> {
        if octets.len() < field::HEADER_END {
            return Err(ObjectRefusal::Short);
        }
        let len = octets.u16_at(field::LENGTH) as usize;
        if len < field::HEADER_END {
            return Err(ObjectRefusal::Length);
        }
        if octets.len() < len {
            return Err(ObjectRefusal::Cut);
        }
        let object = Object {
            class: octets.u8_at(field::CLASS),
            c_type: octets.u8_at(field::C_TYPE),
            payload: &octets[field::HEADER_END..len],
        };
        Ok((object, &octets[len..]))
    }

    /// The bytes that the object takes, its header among them.
    pub fn buffer_len(&self) -> usize {
        field::HEADER_END + self.payload.len()
    }

    /// Writes the object over the front of the octets; the others are unchanged. Requires at least `buffer_len` bytes,
    /// which are fewer than 65,536.
    ///
    /// # Panics
    ///
    /// May panic where what is asked for above does not hold.
    pub fn emit_into(&self, octets: &mut [u8]) {
        let mut w = ByteWriter::new(octets);
        self.put(&mut w);
    }

    // Writes the fields of the object.
    pub(crate) fn put(&self, w: &mut ByteWriter<'_>) {
        let len = field::HEADER_END + self.payload.len();
        w.put_u16(len as u16);
        w.put_u8(self.class);
        w.put_u8(self.c_type);
        w.put_bytes(self.payload);
    }
}

/// The class, the C-Type and the bytes of the payload.
impl fmt::Display for Object<'_> {
    fn fmt(&self, f: &mut fmt::Formatter<'_>) -> fmt::Result {
        let Object {
            class,
            c_type,
            payload,
        } = self;
        let len = payload.len();
        write!(f, "object class={class} c_type={c_type} len={len}")
    }
}

/// The objects of an extension structure.
#[derive(Debug, PartialEq, Eq, Clone, Copy)]
pub struct Objects<'a> {
    octets: &'a [u8],
}

impl<'a> Objects<'a> {
    /// The objects in these octets, which are those behind the header of a structure.
    pub const fn new(octets: &'a [u8]) -> Objects<'a> {
        Objects { octets }
    }

    /// The objects in turn.
    pub fn iter(&self) -> ObjectsIterator<'a> {
        ObjectsIterator { left: self.octets }
    }
}

/// The objects of an extension structure in turn, each as [`Object::parse`] reads it, from the front of the octets to
/// their end. At the first place where it reads none, its refusal is given, and then the end.
#[derive(Debug, Clone)]
pub struct ObjectsIterator<'a> {
    // The octets after the objects that were given already; none after a refusal.
    left: &'a [u8],
}

impl<'a> Iterator for ObjectsIterator<'a> {
    type Item = Result<Object<'a>, ObjectRefusal>;

    fn next(&mut self) -> Option<Result<Object<'a>, ObjectRefusal>> {
        if self.left.is_empty() {
            return None;
        }
        match Object::parse(self.left) {
            Ok((object, behind)) => {
                self.left = behind;
                Some(Ok(object))
            }
            Err(refusal) => {
                self.left = &[];
                Some(Err(refusal))
            }
        }
    }
}
