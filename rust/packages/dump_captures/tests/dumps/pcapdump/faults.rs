// Made from crates/tests_pcapdump/src/pcapdump/faults.rt by rust/erase.
//! Readers and writers that fail.

use super::PRINTED;
use super::packets::{HEADER_LEN, PACKETS, pcap, record_end, text_within};
use crate::testing::same_of;
use capture::Ending;
use dump_captures::tally::Tally;
use dump_captures::{Fault, Report, dump, run_onto};
use rattle_std::io;
use rattle_std::io::{ErrorKind, Read, Write};
#[allow(unused_imports)]
use rattle_std::prelude::*;

// How many octets are given at a call.
const GIVEN: usize = 8;

// How many octets are taken at a call.
const TAKEN: usize = 100;

// Gives octets, and fails at one call.
struct Source<'a> {
    octets: &'a [u8],
    calls: usize,
    fails_at: usize,
    kind: ErrorKind,
}

impl Read for Source<'_> {
    fn read(&mut self, buffer: &mut [u8]) -> io::Result<usize> {
        let call = self.calls;
        self.calls = call.wrapping_add(1);
        if call == self.fails_at {
            return Err(io::Error::from(self.kind));
        }
        let length = buffer.len().min(self.octets.len()).min(GIVEN);
        let (given, left) = self.octets.split_at(length);
        buffer[..length].copy_from_slice(given);
        self.octets = left;
        Ok(length)
    }
}

// What ended a capture, or its printing.
fn end_of<W>(answer: Result<Report<W>, Fault>) -> Result<Ending, Fault> {
    match answer {
        Ok(report) => whole(report.ending),
        Err(fault) => Err(fault),
    }
}

// What ended a capture that was read to its end.
fn whole(ending: Option<Ending>) -> Result<Ending, Fault> {
    ending.ok_or(Fault::Read)
}

// What is printed of a source that fails, or does not, is what the packets print that end before that call.
fn check_source(source: Source<'_>, fails: bool) {
    let fails_at = source.fails_at;
    let octets = if fails {
        fails_at.saturating_mul(GIVEN)
    } else {
        usize::MAX
    };
    let mut output = Vec::new();
    let answer = end_of(run_onto(&PRINTED, source, &mut output));
    let wanted = if fails {
        Err(Fault::Read)
    } else {
        Ok(Ending::Whole)
    };
    same_of(fails_at, answer, wanted);
    let text = text_within(PACKETS, octets);
    same_of(fails_at, output.as_slice(), text.as_slice());
}

// Fails at each call in turn, and at one more than there are.
fn check_sources(octets: &[u8], kind: ErrorKind, fails: bool) {
    // Calls for all octets, and one more at the end.
    let calls = octets.len().div_ceil(GIVEN).wrapping_add(1);
    for fails_at in 0..calls.wrapping_add(1) {
        let source = Source {
            octets,
            calls: 0,
            fails_at,
            kind,
        };
        check_source(source, fails && fails_at < calls);
    }
}

#[test]
fn reads_that_fail() {
    const ROWS: &[(ErrorKind, bool)] = &[
        (ErrorKind::ConnectionReset, true),
        (ErrorKind::OutOfMemory, true),
        // It is tried again.
        (ErrorKind::Interrupted, false),
    ];
    let capture = pcap(PACKETS);
    for &(kind, fails) in ROWS {
        check_sources(capture.as_slice(), kind, fails);
    }
}

// What a capture ends with that ends there.
fn ending_at(end: usize) -> Ending {
    // The magic number, and the header.
    if end < 4 {
        return Ending::NotACapture;
    }
    if end == HEADER_LEN {
        return Ending::Whole;
    }
    for (place, _) in PACKETS.iter().enumerate() {
        if end == record_end(PACKETS, place) {
            return Ending::Whole;
        }
    }
    Ending::Cut
}

// A capture that is cut anywhere prints the packets that are whole.
#[test]
fn captures_that_are_cut() {
    let capture = pcap(PACKETS);
    let octets = capture.as_slice();
    for end in 0..octets.len() {
        let text = text_within(PACKETS, end);
        let mut output = Vec::new();
        let answer = end_of(run_onto(&PRINTED, &octets[..end], &mut output));
        same_of(end, answer, Ok(ending_at(end)));
        same_of(end, output.as_slice(), text.as_slice());
    }
}

// Takes so many octets, and then fails. It notes where each call found it.
struct Sink<'a> {
    output: &'a mut Vec<u8>,
    places: &'a mut Vec<usize>,
    room: usize,
    kind: ErrorKind,
}

impl Sink<'_> {
    // How many octets it takes at a call; it fails where it has room for none.
    fn room_now(&mut self) -> io::Result<usize> {
        self.places.push(self.output.as_slice().len())?;
        if self.room == 0 {
            return Err(io::Error::from(self.kind));
        }
        Ok(self.room.min(TAKEN))
    }
}

impl Write for Sink<'_> {
    fn write(&mut self, buffer: &[u8]) -> io::Result<usize> {
        let length = self.room_now()?.min(buffer.len());
        self.output.extend_from_slice(&buffer[..length])?;
        self.room = self.room.saturating_sub(length);
        Ok(length)
    }

    fn flush(&mut self) -> io::Result<()> {
        self.room_now()?;
        Ok(())
    }
}

// What is written to a sink that fails, or does not, is what it has room for.
fn check_written(
    room: usize,
    answer: Result<Ending, Fault>,
    fault: Fault,
    output: &[u8],
    text: &[u8],
) {
    if room > text.len() {
        same_of(room, answer, Ok(Ending::Whole));
        same_of(room, output, text);
    } else {
        same_of(room, answer, Err(fault));
        same_of(room, Some(output), text.get(..room));
    }
}

// Prints to a sink with a buffer before it, where the input is read a few octets at a time.
fn check_sink(capture: &[u8], room: usize, row: &(ErrorKind, Fault), text: &[u8]) {
    let (kind, fault) = *row;
    let (mut output, mut places) = (Vec::new(), Vec::new());
    let sink = Sink {
        output: &mut output,
        places: &mut places,
        room,
        kind,
    };
    let source = Source {
        octets: capture,
        calls: 0,
        fails_at: usize::MAX,
        kind,
    };
    let answer = end_of(run_onto(&PRINTED, source, sink));
    check_written(room, answer, fault, output.as_slice(), text);
}

// Packets that print little.
fn few() -> &'static [(&'static str, &'static str)] {
    &PACKETS[..4]
}

// The sink fails at each octet in turn, and at none.
#[test]
fn writes_that_fail() {
    const ROWS: &[(ErrorKind, Fault)] = &[
        (ErrorKind::BrokenPipe, Fault::Closed),
        (ErrorKind::OutOfMemory, Fault::Memory),
        (ErrorKind::ConnectionReset, Fault::Write),
        (ErrorKind::StorageFull, Fault::Write),
    ];
    let packets = few();
    let capture = pcap(packets);
    let text = text_within(packets, usize::MAX);
    for row in ROWS {
        for room in 0..text.as_slice().len().wrapping_add(2) {
            check_sink(capture.as_slice(), room, row, text.as_slice());
        }
    }
}

// Prints to a sink with no buffer before it, and answers where each call found it.
fn check_alone(capture: &[u8], room: usize, text: &[u8]) -> Vec<usize> {
    let (mut output, mut places) = (Vec::new(), Vec::new());
    let mut sink = Sink {
        output: &mut output,
        places: &mut places,
        room,
        kind: ErrorKind::BrokenPipe,
    };
    let mut tally = Tally::new();
    let answer = match dump(&PRINTED, capture, &mut sink, &mut tally) {
        Ok(ending) => whole(ending),
        Err(fault) => Err(fault),
    };
    check_written(room, answer, Fault::Closed, output.as_slice(), text);
    places
}

// Each call that writes something of a packet fails in turn.
#[test]
fn writes_of_each_kind_that_fail() {
    let capture = pcap(PACKETS);
    let text = text_within(PACKETS, usize::MAX);
    let places = check_alone(capture.as_slice(), usize::MAX, text.as_slice());
    for room in places.as_slice() {
        check_alone(capture.as_slice(), *room, text.as_slice());
    }
}

// Is interrupted at each second call, and else takes so many octets at most.
struct Slow<'a> {
    output: &'a mut Vec<u8>,
    calls: usize,
    taken: usize,
}

impl Write for Slow<'_> {
    fn write(&mut self, buffer: &[u8]) -> io::Result<usize> {
        self.calls = self.calls.wrapping_add(1);
        if self.calls % 2 == 0 {
            return Err(io::Error::from(ErrorKind::Interrupted));
        }
        let length = buffer.len().min(self.taken);
        self.output.extend_from_slice(&buffer[..length])?;
        Ok(length)
    }

    fn flush(&mut self) -> io::Result<()> {
        Ok(())
    }
}

// A write that is interrupted is tried again, and one that takes nothing fails.
#[test]
fn writes_that_take_little() {
    const ROWS: &[(usize, Result<Ending, Fault>)] = &[
        (1, Ok(Ending::Whole)),
        (TAKEN, Ok(Ending::Whole)),
        (0, Err(Fault::Write)),
    ];
    let capture = pcap(PACKETS);
    for (taken, want) in ROWS {
        let mut output = Vec::new();
        let slow = Slow {
            output: &mut output,
            calls: 0,
            taken: *taken,
        };
        let answer = end_of(run_onto(&PRINTED, capture.as_slice(), slow));
        same_of(taken, answer, *want);
        let text = text_within(PACKETS, if *taken > 0 { usize::MAX } else { 0 });
        same_of(taken, output.as_slice(), text.as_slice());
    }
}
