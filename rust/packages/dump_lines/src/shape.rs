// Made from crates/dump_lines/src/shape.rt by rust/erase.
//! The shape of a line: a command and a packet, nothing, or no known shape.

use crate::Fault;
use crate::command::Command;
use crate::words::{MOST_OCTETS, MOST_WORDS, next_word, read_word};
use arrayvec::ArrayVec;
#[allow(unused_imports)]
use rattle_std::prelude::*;

/// The shape of a line.
#[derive(Clone, Copy)]
pub enum Shape<'a> {
    /// No word.
    Blank,
    /// A command and a packet.
    Packet(Command, &'a [u8]),
    /// No known shape.
    Bad,
}

impl<'a> Shape<'a> {
    /// The shape of a line without its LF. The packet goes to the buffer.
    pub fn of_line(packet_buffer: &'a mut Vec<u8>, line: &[u8]) -> Result<Shape<'a>, Fault> {
        Shape::of_text(packet_buffer, without_cr(line))
    }

    // The shape of a line without its end.
    fn of_text(packet_buffer: &'a mut Vec<u8>, text: &[u8]) -> Result<Shape<'a>, Fault> {
        let mut words = ArrayVec::<&[u8], MOST_WORDS>::new();
        let mut rest = text;
        loop {
            let (word, behind) = next_word(rest);
            if word.is_empty() {
                return Shape::of_words(packet_buffer, words.as_slice());
            }
            if word.len() > MOST_OCTETS || words.try_push(word).is_err() {
                return Ok(Shape::Bad);
            }
            rest = behind;
        }
    }

    // The shape of a line of these words.
    fn of_words(packet_buffer: &'a mut Vec<u8>, words: &[&[u8]]) -> Result<Shape<'a>, Fault> {
        match words {
            [] => Ok(Shape::Blank),
            [word, arguments @ .., packet] => {
                let Some(command) = Command::of(word, arguments) else {
                    return Ok(Shape::Bad);
                };
                match read_word(packet_buffer, packet)? {
                    Some(packet) if command.reads(packet) => Ok(Shape::Packet(command, packet)),
                    _ => Ok(Shape::Bad),
                }
            }
            [_] => Ok(Shape::Bad),
        }
    }
}

/// A line without the CR at its end.
pub fn without_cr(line: &[u8]) -> &[u8] {
    match line {
        [front @ .., b'\r'] => front,
        _ => line,
    }
}
