// Made from crates/dump_lines/src/buffered_line.rt by rust/erase.
//! One look at an input for its next line, which is read in the input's buffer if it is there as a whole.

use crate::Fault;
use crate::partial_line::try_again;
use crate::search::len_before;
use crate::shape::Shape;
use rattle_std::io::BufRead;
#[allow(unused_imports)]
use rattle_std::prelude::*;

/// What a look at an input finds of its next line.
#[derive(Clone, Copy)]
pub enum BufferedLine<'a> {
    /// The line was buffered as a whole, has this shape, and is taken.
    Line(Shape<'a>),
    /// Not all of it is buffered, and nothing is taken.
    Part,
    /// There is no line.
    End,
}

/// Looks for the next line, whose packet goes to the buffer.
#[inline]
pub fn look<'a, R: BufRead>(
    packet_buffer: &'a mut Vec<u8>,
    input: &mut R,
) -> Result<BufferedLine<'a>, Fault> {
    let available = match input.fill_buf() {
        Ok(available) => available,
        Err(error) => {
            try_again(&error)?;
            return Ok(BufferedLine::Part);
        }
    };
    let (count, glance) = look_at(packet_buffer, available)?;
    input.consume(count);
    Ok(glance)
}

// `look` over the buffered octets, which are empty only at the input's end; also returns the number of octets that are
// taken.
#[inline]
fn look_at<'a>(
    packet_buffer: &'a mut Vec<u8>,
    shown: &[u8],
) -> Result<(usize, BufferedLine<'a>), Fault> {
    if shown.is_empty() {
        return Ok((0, BufferedLine::End));
    }
    let end = len_before(shown, b'\n');
    if end == shown.len() {
        return Ok((0, BufferedLine::Part));
    }
    let shape = Shape::of_line(packet_buffer, &shown[..end])?;
    Ok((end + 1, BufferedLine::Line(shape)))
}
