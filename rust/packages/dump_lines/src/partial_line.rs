// Made from crates/dump_lines/src/partial_line.rt by rust/erase.
//! Lines of an input, read in bounded memory.
//!
//! Of a line its words are kept, each with one space after it but the last. A line with a word too long or too many
//! words is bad whatever follows, so that nothing more of it is kept.

use crate::Fault;
use crate::search::{len_before, len_before_either, spaces_len};
use crate::shape::Shape;
use crate::words::{MOST_OCTETS, MOST_WORDS};
use rattle_std::io;
use rattle_std::io::{BufRead, ErrorKind};
#[allow(unused_imports)]
use rattle_std::prelude::*;

/// A line as far as it is read.
pub struct Line {
    // Its words, each with one space after it but the last.
    octets: Vec<u8>,
    // The offset of the last word.
    start: usize,
    // The number of octets before that one.
    words: usize,
    // Whether the line is bad, whatever follows.
    is_bad: bool,
}

impl Line {
    /// A line of which nothing is read.
    #[inline]
    pub fn new() -> Line {
        Line {
            octets: Vec::new(),
            start: 0,
            words: 0,
            is_bad: false,
        }
    }

    fn clear(&mut self) {
        self.octets.clear();
        self.start = 0;
        self.words = 0;
        self.is_bad = false;
    }

    /// The line's shape, once it is read. The packet is in the buffer.
    #[inline]
    pub fn shape<'a>(&self, packet_buffer: &'a mut Vec<u8>) -> Result<Shape<'a>, Fault> {
        if self.is_bad {
            return Ok(Shape::Bad);
        }
        Shape::of_line(packet_buffer, self.octets.as_slice())
    }

    // Takes spaces, of which one is kept after a word.
    fn take_spaces(&mut self, spaces: &[u8]) -> Result<(), Fault> {
        if spaces.is_empty() || self.is_bad || self.start == self.octets.as_slice().len() {
            return Ok(());
        }
        if self.words == MOST_WORDS {
            self.is_bad = true;
            return Ok(());
        }
        let Ok(()) = self.octets.extend_from_slice(b" ") else {
            return Err(Fault::Memory);
        };
        self.words += 1;
        self.start = self.octets.as_slice().len();
        Ok(())
    }

    // Takes a part of a word.
    fn take_word(&mut self, part: &[u8]) -> Result<(), Fault> {
        if self.is_bad {
            return Ok(());
        }
        // A CR may still be the line's end.
        if part.len() > MOST_OCTETS + 1 - (self.octets.as_slice().len() - self.start) {
            self.is_bad = true;
            return Ok(());
        }
        match self.octets.extend_from_slice(part) {
            Ok(()) => Ok(()),
            Err(_) => Err(Fault::Memory),
        }
    }
}

/// Reads the next line, and returns whether there was one.
#[inline]
pub fn read_line<R: BufRead>(input: &mut R, line: &mut Line) -> Result<bool, Fault> {
    line.clear();
    let mut begun = false;
    for _ in 0..u64::MAX {
        let (count, ended) = take_part(input, line)?;
        begun |= count > 0;
        if ended {
            return Ok(begun);
        }
    }
    Err(Fault::Read)
}

/// A read that was interrupted is tried again; any other failure is a fault.
pub fn try_again(error: &io::Error) -> Result<(), Fault> {
    if error.kind() == ErrorKind::Interrupted {
        Ok(())
    } else {
        Err(Fault::Read)
    }
}

// Takes spaces and what is buffered of a word after them; returns the number of octets taken, and whether the line or
// the input has ended.
fn take_part<R: BufRead>(input: &mut R, line: &mut Line) -> Result<(usize, bool), Fault> {
    let available = match input.fill_buf() {
        Ok(available) => available,
        Err(error) => {
            try_again(&error)?;
            return Ok((0, false));
        }
    };
    let (count, ended) = take_line(line, available)?;
    input.consume(count);
    Ok((count, ended))
}

// `take_part` of the buffered octets, which are empty only at the input's end.
fn take_line(line: &mut Line, shown: &[u8]) -> Result<(usize, bool), Fault> {
    let end = take_front(line, shown)?;
    if end < shown.len() && shown[end] == b'\n' {
        return Ok((end + 1, true));
    }
    Ok((end, shown.is_empty()))
}

// Takes the spaces in front and the word after them, or all that is buffered of a bad line, and returns the number of
// octets.
fn take_front(line: &mut Line, shown: &[u8]) -> Result<usize, Fault> {
    if line.is_bad {
        // The line is as it was, whatever follows.
        return Ok(len_before(shown, b'\n'));
    }
    let spaces = spaces_len(shown);
    let end = spaces + word_len(&shown[spaces..]);
    line.take_spaces(&shown[..spaces])?;
    line.take_word(&shown[spaces..end])?;
    Ok(end)
}

// The number of octets before the first space or LF.
fn word_len(octets: &[u8]) -> usize {
    len_before_either(octets, b' ', b'\n')
}
