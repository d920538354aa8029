// Made from crates/record_wire/src/name/name_text.rt by rust/erase.
//! The texts of names, put into a formatter or into another output.

use crate::record::escapes::{Escaping, PIECE_LEN, put_bytes, put_one};
use crate::record::name::Name;
use crate::record::name::dotted::{ROOM_LEN, put_text};
use crate::record::name::label::split_label;
use crate::record::name::refusal::{NameRefusal, read_name};
use crate::wirebase::text::Sink;
use core::result;

/// The text of a name, with its last dot; the root is a dot. It is large, so it is created empty and filled in place.
pub(crate) struct NameText {
    // Most names have no byte that needs a backslash; their text is at the start of this buffer.
    room: [u8; ROOM_LEN],
    len: usize,
    // A name of another text.
    other: Option<Name>,
}

impl NameText {
    /// The text of no name.
    #[inline(always)]
    pub(crate) fn new() -> NameText {
        NameText {
            room: [0; ROOM_LEN],
            len: 0,
            other: None,
        }
    }

    /// Reads the name that begins in `bytes`, a part of the message or not, and goes on where its pointers lead in the
    /// message, and keeps its text. Refused as [`Name::read`] refuses it. A text of no name reads one.
    ///
    /// # Panics
    ///
    /// May panic where what is asked for above does not hold.
    #[inline(always)]
    pub(crate) fn read<'a>(
        &mut self,
        message: &'a [u8],
        bytes: &'a [u8],
    ) -> result::Result<(), NameRefusal> {
        match put_text(&mut self.room, message, bytes) {
            Some(len) => {
                self.len = len;
                Ok(())
            }
            None => {
                self.len = 0;
                self.read_other(message, bytes)
            }
        }
    }

    // Keeps the name by its octets.
    #[inline(never)]
    fn read_other<'a>(
        &mut self,
        message: &'a [u8],
        bytes: &'a [u8],
    ) -> result::Result<(), NameRefusal> {
        match read_name(message, bytes) {
            Ok(name) => {
                self.other = Some(name);
                Ok(())
            }
            Err(refusal) => Err(refusal),
        }
    }

    /// The text of a whole name, which has no pointers, so that it reads in any message.
    #[inline(always)]
    pub(crate) fn of(name: &Name) -> NameText {
        let mut text = NameText::new();
        let Ok(()) = text.read(&[], name.octets()) else {
            return text;
        };
        text
    }

    /// Puts the text.
    pub(crate) fn put<O, S: Sink<O>>(&self, output: &mut O) -> result::Result<(), S::Error> {
        match &self.other {
            None => S::put(output, &self.room[..self.len]),
            Some(name) => put_other::<O, S>(output, name),
        }
    }
}

impl Name {
    /// Puts the name with its last dot, as a zone file has it; the root is a dot.
    pub fn put_whole<O, S: Sink<O>>(&self, output: &mut O) -> result::Result<(), S::Error> {
        put_other::<O, S>(output, self)
    }
}

// Puts a name with its last dot; the root is a dot.
#[inline(never)]
fn put_other<O, S: Sink<O>>(output: &mut O, name: &Name) -> result::Result<(), S::Error> {
    put_name::<O, S>(output, name)?;
    // Byte 0 alone is the root.
    if name.octets().len() == 1 {
        return Ok(());
    }
    S::put_str(output, ".")
}

/// Puts the labels of a name with dots between them; the root is a dot.
#[inline(always)]
pub(super) fn put_name<O, S: Sink<O>>(output: &mut O, name: &Name) -> result::Result<(), S::Error> {
    let octets = name.octets();
    // Byte 0 alone is the root.
    if octets.len() == 1 {
        return S::put_str(output, ".");
    }
    put_labels::<O, S>(output, octets)
}

// Puts the labels in octets with dots between them, and a dot alone where there are none. A function of its own, so
// that the root is put without the buffer for a piece.
#[inline(never)]
fn put_labels<O, S: Sink<O>>(output: &mut O, octets: &[u8]) -> result::Result<(), S::Error> {
    let Some((first, rest)) = split_label(octets) else {
        return S::put_str(output, ".");
    };
    let mut piece = [0; PIECE_LEN];
    let mut len = 0;
    let mut label = first;
    let mut left = rest;
    loop {
        len = put_bytes::<O, S>(output, &mut piece, len, label, Escaping::Label)?;
        let Some((next, rest)) = split_label(left) else {
            return S::put(output, &piece[..len]);
        };
        len = put_one::<O, S>(output, &mut piece, len, b'.')?;
        label = next;
        left = rest;
    }
}
