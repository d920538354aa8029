// Made from crates/capture/src/reader.rt by rust/erase.
//! Reading of an input in blocks of bounded size.

use crate::ending::Fault;
use rattle_std::io::{BufRead, ErrorKind};
#[allow(unused_imports)]
use rattle_std::prelude::*;

/// Reads until there are this many octets, or the input has ended. Does not read where there are enough already.
///
/// # Panics
///
/// May panic where what is asked for above does not hold.
pub fn read_onto<R: BufRead>(
    input: &mut R,
    octets: &mut Vec<u8>,
    count: usize,
) -> Result<(), Fault> {
    if octets.as_slice().len() == count {
        return Ok(());
    }
    // A bound that no input reaches: each loop has to end.
    for _ in 0..u64::MAX {
        let missing = count - octets.as_slice().len();
        let ended = take_part(input, octets, missing)?;
        if ended {
            return Ok(());
        }
    }
    Err(Fault::Read)
}

// Takes buffered octets up to this many, and returns whether these are all or the input has ended.
fn take_part<R: BufRead>(
    input: &mut R,
    octets: &mut Vec<u8>,
    missing: usize,
) -> Result<bool, Fault> {
    let Some(shown) = look(input)? else {
        return Ok(false);
    };
    let count = shown.len().min(missing);
    let Ok(()) = octets.extend_from_slice(&shown[..count]) else {
        return Err(Fault::Memory);
    };
    let ended = count == missing || shown.is_empty();
    input.consume(count);
    Ok(ended)
}

/// Passes over this many octets, or over all where there are fewer, and returns whether there were enough.
pub fn skip<R: BufRead>(input: &mut R, count: usize) -> Result<bool, Fault> {
    let mut missing = count;
    // A bound that no input reaches: each loop has to end.
    for _ in 0..u64::MAX {
        let (skipped, ended) = skip_part(input, missing)?;
        missing -= skipped;
        if ended {
            return Ok(missing == 0);
        }
    }
    Err(Fault::Read)
}

// Passes over buffered octets up to this many; returns their number, and whether they are all or the input has ended.
fn skip_part<R: BufRead>(input: &mut R, missing: usize) -> Result<(usize, bool), Fault> {
    let Some(shown) = look(input)? else {
        return Ok((0, false));
    };
    let len = shown.len();
    let count = len.min(missing);
    input.consume(count);
    Ok((count, count == missing || len == 0))
}

/// The octets in the input's buffer, or none where the read was interrupted and is to be tried again.
pub fn look<R: BufRead>(input: &mut R) -> Result<Option<&[u8]>, Fault> {
    match input.fill_buf() {
        Ok(shown) => Ok(Some(shown)),
        Err(error) if error.kind() == ErrorKind::Interrupted => Ok(None),
        Err(error) => Err(Fault::from(error)),
    }
}
