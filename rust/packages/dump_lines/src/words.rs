// Made from crates/dump_lines/src/words.rt by rust/erase.
//! The words of a line, and the octets that a word spells.

use crate::Fault;
use crate::hex_digits::{are_digits, decode, decode_front};
use crate::search::{len_before, spaces_len};
#[allow(unused_imports)]
use rattle_std::prelude::*;

/// The most words of a line: a command, two further words, and a packet.
pub const MOST_WORDS: usize = 4;

/// The most octets of a word.
pub const MOST_OCTETS: usize = 131_070;

// The largest offset in a packet.
const MOST_OFFSET: usize = 65_535;

// The fewest digits of a packet.
const FEWEST_DIGITS: usize = 2;

// The number of digits of an address.
const ADDRESS_DIGITS: usize = 32;

/// The first word of a text, empty where there is none, and what follows it.
#[inline]
pub fn next_word<'a>(text: &'a [u8]) -> (&'a [u8], &'a [u8]) {
    let rest = &text[spaces_len(text)..];
    let len = len_before(rest, b' ');
    rest.split_at(len)
}

/// Whether a word is this one.
#[inline]
pub fn is_word(word: &[u8], name: &str) -> bool {
    word == name.as_bytes()
}

/// The octets that a word spells, or None where it spells none. They are in a buffer that is kept from word to word and
/// grows where it is too small.
///
/// `-` spells no octets, and an even number, 2 to 131,070, of hexadecimal digits of either case an octet for each two,
/// the high digit first.
#[inline]
pub fn read_word<'a>(
    packet_buffer: &'a mut Vec<u8>,
    text: &[u8],
) -> Result<Option<&'a [u8]>, Fault> {
    if is_word(text, "-") {
        return Ok(Some(&[]));
    }
    if !are_pairs(text) {
        return Ok(None);
    }
    let count = text.len() / 2;
    grow(packet_buffer, count)?;
    decode_front(text, packet_buffer.as_mut_slice());
    Ok(Some(&packet_buffer.as_slice()[..count]))
}

// Makes the buffer at least this large. Its contents are lost where it was smaller.
#[inline]
fn grow(packet_buffer: &mut Vec<u8>, count: usize) -> Result<(), Fault> {
    if packet_buffer.len() >= count {
        return Ok(());
    }
    // The old buffer is freed first.
    *packet_buffer = Vec::new();
    let Ok(octets) = rattle_std::vec![ 0u8; count] else {
        return Err(Fault::Memory);
    };
    *packet_buffer = octets;
    Ok(())
}

// Whether these are digits, and as many as a packet may have.
fn are_pairs(text: &[u8]) -> bool {
    is_even_length(text.len()) && are_digits(text)
}

fn is_even_length(count: usize) -> bool {
    (count % 2 == 0) & (count >= FEWEST_DIGITS) & (count <= MOST_OCTETS)
}

/// The 16 octets of an IPv6 address, from 32 hexadecimal digits of either case; None where a word is anything else.
#[inline]
pub fn read_address(text: &[u8]) -> Option<[u8; 16]> {
    if text.len() != ADDRESS_DIGITS || !are_digits(text) {
        return None;
    }
    let mut octets = [0; 16];
    decode(text, &mut octets);
    Some(octets)
}

/// An offset in a packet, in decimal digits, with or without leading zeros; None where a word is anything else, or
/// where the offset is larger than the longest packet.
#[inline]
pub fn read_offset(text: &[u8]) -> Option<usize> {
    if text.is_empty() {
        return None;
    }
    let mut offset = 0;
    for octet in text {
        if *octet < b'0' || *octet > b'9' {
            return None;
        }
        offset = 10 * offset + usize::from(*octet - b'0');
        if offset > MOST_OFFSET {
            return None;
        }
    }
    Some(offset)
}
