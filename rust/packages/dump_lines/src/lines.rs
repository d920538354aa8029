// Made from crates/dump_lines/src/lines.rt by rust/erase.
//! The lines of an input, in one pass.

use crate::Fault;
use crate::buffered_line::{BufferedLine, look};
use crate::line::{show_line, show_shape};
use crate::partial_line::{Line, read_line};
use rattle_std::io::{BufReader, BufWriter, Read, Write};
#[allow(unused_imports)]
use rattle_std::prelude::*;

/// Prints what each line of the input holds; returns true where each line had a known shape.
///
/// Output is written out before more of the input is waited for, and before a fault is returned, as far as the output
/// takes it.
pub fn run<R: Read, W: Write>(input: R, output: W) -> Result<bool, Fault> {
    let (all_known, _) = run_onto(input, output)?;
    Ok(all_known)
}

/// Prints what each line of the input holds, and returns the output with all that was printed written out.
pub fn run_onto<R: Read, W: Write>(input: R, output: W) -> Result<(bool, W), Fault> {
    let Ok(mut input) = BufReader::new(input) else {
        return Err(Fault::Memory);
    };
    let Ok(mut output) = BufWriter::new(output) else {
        return Err(Fault::Memory);
    };
    let all_known = show_flushed(&mut input, &mut output)?;
    match output.into_inner() {
        Ok(output) => Ok((all_known, output)),
        Err(_) => Err(Fault::Write),
    }
}

// Prints what each line holds, and then writes out the output, also after a fault.
fn show_flushed<R: Read, W: Write>(
    input: &mut BufReader<R>,
    output: &mut W,
) -> Result<bool, Fault> {
    let answer = show_lines(input, output);
    let flushed = output.flush();
    let all_known = answer?;
    match flushed {
        Ok(()) => Ok(all_known),
        Err(_) => Err(Fault::Write),
    }
}

// Prints what each line holds; returns true where each line had a known shape.
fn show_lines<R: Read, W: Write>(input: &mut BufReader<R>, output: &mut W) -> Result<bool, Fault> {
    let mut line = Line::new();
    let mut packet_buffer = Vec::new();
    let mut all_known = true;
    for _ in 0..u64::MAX {
        match show_next(input, output, &mut line, &mut packet_buffer)? {
            Some(known) => {
                all_known &= known;
            }
            None => return Ok(all_known),
        }
    }
    Err(Fault::Read)
}

// Prints what the next line holds, and returns whether its shape is known, or None where there is no line. `line` keeps
// a line that is not buffered as a whole, and `packet_buffer` the packet of one that is.
fn show_next<R: Read, W: Write>(
    input: &mut BufReader<R>,
    output: &mut W,
    line: &mut Line,
    packet_buffer: &mut Vec<u8>,
) -> Result<Option<bool>, Fault> {
    write_out_before_wait(input, output)?;
    let glance = look(packet_buffer, input)?;
    match glance {
        BufferedLine::Line(shape) => {
            let known = show_shape(output, shape)?;
            Ok(Some(known))
        }
        BufferedLine::Part => show_part(input, output, line),
        BufferedLine::End => Ok(None),
    }
}

// Shows a line that is not buffered as a whole. Its packet may be long, and is not kept for the lines after it.
fn show_part<R: Read, W: Write>(
    input: &mut BufReader<R>,
    output: &mut W,
    line: &mut Line,
) -> Result<Option<bool>, Fault> {
    // The rest of the line is waited for.
    write_out(output)?;
    let more = read_line(input, line)?;
    if !more {
        return Ok(None);
    }
    let known = show_line(&mut Vec::new(), output, line)?;
    Ok(Some(known))
}

// Writes out the output, where the next look at an input has to wait for more of it.
fn write_out_before_wait<R: Read, W: Write>(
    input: &BufReader<R>,
    output: &mut W,
) -> Result<(), Fault> {
    if input.buffer().is_empty() {
        return write_out(output);
    }
    Ok(())
}

fn write_out<W: Write>(output: &mut W) -> Result<(), Fault> {
    match output.flush() {
        Ok(()) => Ok(()),
        Err(_) => Err(Fault::Write),
    }
}

/// The exit status for the result of a run.
pub fn status(answer: &Result<bool, Fault>) -> u8 {
    match answer {
        Ok(true) => 0,
        Ok(false) => 2,
        Err(_) => 3,
    }
}
