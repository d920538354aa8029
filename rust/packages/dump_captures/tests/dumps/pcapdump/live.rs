// Made from crates/tests_pcapdump/src/pcapdump/live.rt by rust/erase.
//! What is written out by the time that more of the input is read.

use super::PRINTED;
use super::packets::{
    PACKETS, append, append_interface, append_packet, append_section, pcap, record_end,
};
use crate::testing::{holds_of, same_of};
use dump_captures::run_onto;
use rattle_std::io;
use rattle_std::io::{Read, Write};
#[allow(unused_imports)]
use rattle_std::prelude::*;
use std::cell::Cell;

// Gives octets, at each read up to the next of these ends, and notes how many were written by then.
struct Wire<'a> {
    octets: &'a [u8],
    given: usize,
    ends: &'a [(usize, usize)],
    written: &'a Cell<usize>,
    noted: &'a mut Vec<usize>,
}

impl Read for Wire<'_> {
    fn read(&mut self, buffer: &mut [u8]) -> io::Result<usize> {
        self.noted.push(self.written.get())?;
        let Some(((end, _), rest)) = self.ends.split_first() else {
            return Ok(0);
        };
        self.ends = rest;
        let shown = self.octets.get(self.given..*end).unwrap_or(b"");
        let length = shown.len().min(buffer.len());
        buffer[..length].copy_from_slice(&shown[..length]);
        self.given = self.given.wrapping_add(length);
        Ok(length)
    }
}

// Takes all that is written, and counts its octets and the calls.
struct Screen<'a> {
    text: &'a mut Vec<u8>,
    written: &'a Cell<usize>,
    calls: &'a mut usize,
}

impl Write for Screen<'_> {
    fn write(&mut self, buffer: &[u8]) -> io::Result<usize> {
        self.text.extend_from_slice(buffer)?;
        self.written.set(self.text.as_slice().len());
        *self.calls = self.calls.wrapping_add(1);
        Ok(buffer.len())
    }

    fn flush(&mut self) -> io::Result<()> {
        Ok(())
    }
}

// Gives a capture up to each of these ends in turn: before the next is given, so many packets were printed and written
// out, those that came together in one call.
fn check(capture: &[u8], ends: &[(usize, usize)]) {
    let written = Cell::new(0);
    let (mut text, mut noted, mut calls) = (Vec::new(), Vec::new(), 0);
    let wire = Wire {
        octets: capture,
        given: 0,
        ends,
        written: &written,
        noted: &mut noted,
    };
    let screen = Screen {
        text: &mut text,
        written: &written,
        calls: &mut calls,
    };
    holds_of("answer", run_onto(&PRINTED, wire, screen).is_ok());
    check_noted(ends, noted.as_slice(), text.as_slice(), calls);
}

fn check_noted(ends: &[(usize, usize)], noted: &[usize], text: &[u8], calls: usize) {
    let mut before = 0;
    let mut writes = 0usize;
    let mut wanted = Vec::new();
    for ((end, packets), noted) in ends.iter().zip(noted) {
        same_of(end, *noted, wanted.as_slice().len());
        let length = wanted.as_slice().len();
        append_texts(&mut wanted, before, *packets);
        before = *packets;
        writes = writes.wrapping_add(usize::from(wanted.as_slice().len() > length));
    }
    same_of("text", text, wanted.as_slice());
    same_of("reads", noted.len(), ends.len().wrapping_add(1));
    same_of("last", noted.last().copied(), Some(text.len()));
    same_of("writes", calls, writes);
}

// Puts what the packets from one to another print behind what those before print.
fn append_texts(text: &mut Vec<u8>, from: usize, to: usize) {
    for (place, (_, printed)) in PACKETS.iter().enumerate() {
        if from <= place && place < to {
            append(text, printed.as_bytes());
        }
    }
}

// Where the record ends in a pcap file that has so many before it.
fn end(before: usize) -> usize {
    record_end(PACKETS, before)
}

#[test]
fn packets_of_pcap_are_printed_before_more_is_read() {
    let capture = pcap(PACKETS);
    let ends = [
        // A part of the header, the rest, and a whole record.
        (10, 0),
        (24, 0),
        (end(0), 1),
        // A part of a record's header, the rest of it, the packet's first octet, and all of it: it prints nothing.
        (end(0).wrapping_add(15), 1),
        (end(0).wrapping_add(16), 1),
        (end(0).wrapping_add(17), 1),
        (end(1), 2),
        // Two records and a part of one, and all of that but its last octet.
        (end(3).wrapping_add(40), 4),
        (end(4).wrapping_sub(1), 4),
        // That octet and the next record, and then the others.
        (end(5), 6),
        (end(12), 13),
    ];
    check(capture.as_slice(), &ends);
}

#[test]
fn packets_of_pcapng_are_printed_before_more_is_read() {
    let mut capture = Vec::new();
    append_section(&mut capture);
    append_interface(&mut capture, 101);
    let mut ends = [0; 13];
    for ((end, place), (digits, _)) in ends.iter_mut().zip(0..u32::MAX).zip(PACKETS) {
        append_packet(&mut capture, 0, place, digits);
        *end = capture.as_slice().len();
    }
    let rows = [
        // A part of the section's header, the rest with a part of the interface, and the rest of that.
        (12, 0),
        (30, 0),
        (48, 0),
        // A whole block, a part of one up to its packet's end, and the rest.
        (ends[0], 1),
        (ends[1].wrapping_sub(4), 1),
        (ends[1], 2),
        // Blocks and a part of one, and the rest of it.
        (ends[4].wrapping_add(9), 5),
        (ends[5].wrapping_sub(1), 5),
        (ends[5], 6),
        (ends[12], 13),
    ];
    check(capture.as_slice(), &rows);
}
