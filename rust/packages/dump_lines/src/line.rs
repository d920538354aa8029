// Made from crates/dump_lines/src/line.rt by rust/erase.
//! What a line prints.

use crate::Fault;
use crate::partial_line::Line;
use crate::shape::Shape;
use listing::printer;
use rattle_std::io::Write;
#[allow(unused_imports)]
use rattle_std::prelude::*;

/// Prints what a line holds, and returns whether its shape is known.
///
/// A line is a command, the command's further words, and a packet. A line without a word prints nothing.
#[inline]
pub fn show_line<W: Write>(
    packet_buffer: &mut Vec<u8>,
    output: &mut W,
    line: &Line,
) -> Result<bool, Fault> {
    show_shape(output, line.shape(packet_buffer)?)
}

/// Prints the output of a line of this shape.
#[inline]
pub fn show_shape<W: Write>(output: &mut W, shape: Shape<'_>) -> Result<bool, Fault> {
    let (shown, known) = match shape {
        Shape::Blank => (Ok(()), true),
        Shape::Packet(command, packet) => (command.show(output, packet), true),
        Shape::Bad => (printer::line(output, "bad line"), false),
    };
    match shown {
        Ok(()) => Ok(known),
        Err(_) => Err(Fault::Write),
    }
}
