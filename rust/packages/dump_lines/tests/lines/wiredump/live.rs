// Made from crates/tests_wiredump/src/wiredump/live.rt by rust/erase.
//! What is written out by the time that more of the input is read.

use super::append;
use crate::testing::same_of;
use dump_lines::run;
use rattle_std::io;
use rattle_std::io::{Read, Write};
#[allow(unused_imports)]
use rattle_std::prelude::*;
use std::cell::Cell;

// What a read gives, and what is printed before the next one.
const ROWS: &[(&str, &str)] = &[
    // A line, and a part of one.
    ("hbh 010400000000\n", "PadN=4\n"),
    ("hbh 01", ""),
    // The rest of it, and one more.
    ("0400000000\nfoo -\n", "PadN=4\nbad line\n"),
    // Lines, and a part of one behind them.
    (
        "hbh 0104\n\nndopt 05010000000005dc\nhb",
        "refused\nMtu=1500\n",
    ),
    ("h 0104", ""),
    ("00000000", ""),
    ("\r", ""),
    ("\n", "PadN=4\n"),
    // A line that ends with the input.
    ("hbh 010400000000", ""),
    ("", "PadN=4\n"),
];

// Gives a row at a read, and notes how many octets were written by then.
struct Keyboard<'a> {
    written: &'a Cell<usize>,
    noted: &'a mut Vec<usize>,
}

impl Read for Keyboard<'_> {
    fn read(&mut self, buffer: &mut [u8]) -> io::Result<usize> {
        let row = self.noted.as_slice().len();
        self.noted.push(self.written.get())?;
        let Some((given, _)) = ROWS.get(row) else {
            return Ok(0);
        };
        let length = given.len().min(buffer.len());
        buffer[..length].copy_from_slice(&given.as_bytes()[..length]);
        Ok(length)
    }
}

// Takes all that is written, and counts its octets and the calls.
struct Screen<'a> {
    text: &'a mut Vec<u8>,
    written: &'a Cell<usize>,
    calls: &'a mut usize,
}

impl Write for Screen<'_> {
    fn write(&mut self, buffer: &[u8]) -> io::Result<usize> {
        self.text.extend_from_slice(buffer)?;
        self.written.set(self.text.as_slice().len());
        *self.calls = self.calls.wrapping_add(1);
        Ok(buffer.len())
    }

    fn flush(&mut self) -> io::Result<()> {
        Ok(())
    }
}

#[test]
fn lines_are_printed_before_more_is_read() {
    let written = Cell::new(0);
    let (mut text, mut noted, mut calls) = (Vec::new(), Vec::new(), 0);
    let keyboard = Keyboard {
        written: &written,
        noted: &mut noted,
    };
    let screen = Screen {
        text: &mut text,
        written: &written,
        calls: &mut calls,
    };
    same_of("answer", run(keyboard, screen), Ok(false));
    check_rows(noted.as_slice(), text.as_slice(), calls);
}

// Before each read all was written that is printed by then, and in one call.
fn check_rows(noted: &[usize], text: &[u8], calls: usize) {
    let mut wanted = String::new();
    let mut writes = 0usize;
    for ((given, printed), noted) in ROWS.iter().zip(noted) {
        same_of(given, *noted, wanted.len());
        append(&mut wanted, printed, 1);
        writes = writes.wrapping_add(usize::from(!printed.is_empty()));
    }
    same_of("text", text, wanted.as_bytes());
    same_of("reads", noted.len(), ROWS.len().wrapping_add(1));
    same_of("writes", calls, writes);
}
