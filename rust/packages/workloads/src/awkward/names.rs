// Made from crates/workloads/src/awkward/names.rt by rust/erase.
//! Names in many pieces, and after thousands of pointers.

use crate::digest::Digest;
use arrayvec::ArrayString;
use byteorder::{BigEndian, ByteOrder};
use control_wire::dns::Packet;
use control_wire::record::Name;
use std::fmt::Write;

// The bytes of a message's header.
const HEADER_LEN: usize = 12;

// The labels of a name of 255 octets, of one byte each, and the bytes of one label and its pointer.
const PIECES: usize = 127;

const PIECE_LEN: usize = 4;

/// The bytes of a message with a name in pieces.
pub const PIECES_LEN: usize = HEADER_LEN + PIECE_LEN * PIECES + 1;

/// The bytes of a message of pointers, the largest offset of a pointer.
pub const CHAIN_LEN: usize = 16_384;

// Adds the labels of the name that begins at a place of a message.
fn add_labels(message: &[u8], place: usize, digest: &mut Digest) {
    let Some(bytes) = message.get(place..) else {
        return;
    };
    let packet = Packet::new_unchecked(message);
    for label in packet.parse_name(bytes) {
        match label {
            Ok(label) => digest.add_octets(label),
            Err(_) => digest.add(1),
        }
    }
}

// Adds the name that begins at a place of a message: its labels, its octets and its text.
fn add_name(message: &[u8], place: usize, digest: &mut Digest) {
    add_labels(message, place, digest);
    let Some(bytes) = message.get(place..) else {
        return;
    };
    let packet = Packet::new_unchecked(message);
    let Ok(name) = Name::read(&packet, bytes) else {
        digest.add(2);
        return;
    };
    digest.add_octets(name.octets());
    let mut text: ArrayString<1024> = ArrayString::new();
    if write!(text, "{name}").is_ok() {
        digest.add_octets(text.as_str().as_bytes());
        match Name::from_text(text.as_str().as_bytes()) {
            Ok(name) => digest.add_octets(name.octets()),
            Err(_) => digest.add(3),
        }
    }
}

/// Writes a name whose labels are apart, each before a pointer to the next one, and reads it.
pub fn read_pieces(number: u64, message: &mut [u8; PIECES_LEN], digest: &mut Digest) {
    message[PIECES_LEN - 1] = 0;
    for piece in 0..PIECES {
        let start = HEADER_LEN + PIECE_LEN * piece;
        message[start] = 1;
        message[start + 1] = (number.rotate_left(piece as u32 % 64) % 256) as u8;
        // The first piece ends the name: its pointer leads to byte 0 of the header, the root.
        let target = if piece == 0 { 0 } else { start - PIECE_LEN };
        BigEndian::write_u16(&mut message[start + 2..start + 4], 0xc000 + target as u16);
    }
    message[0] = 0;
    add_name(message, HEADER_LEN + PIECE_LEN * (PIECES - 1), digest);
    // One label more is too many.
    message[0] = 1;
    message[1] = (number % 256) as u8;
    message[2] = 0;
    add_name(message, HEADER_LEN + PIECE_LEN * (PIECES - 1), digest);
}

/// Writes pointers into a message, each to the one before it; the first of them leads to a label.
pub fn write_chain(message: &mut [u8]) {
    if message.len() < CHAIN_LEN {
        return;
    }
    for step in 0..(CHAIN_LEN - HEADER_LEN - 4) / 2 {
        let place = HEADER_LEN + 4 + 2 * step;
        BigEndian::write_u16(&mut message[place..place + 2], 0xc000 + (place - 2) as u16);
    }
}

/// Reads the labels of a name after thousands of pointers, and a whole name after at most 127, the most that are
/// followed.
pub fn read_chain(number: u64, message: &[u8], digest: &mut Digest) {
    let place = HEADER_LEN + 4 + 2 * (number % 8_000) as usize;
    add_labels(message, place, digest);
    let place = HEADER_LEN + 4 + 2 * (number % 127) as usize;
    add_name(message, place, digest);
}
