// Made from crates/dump_captures/src/packets.rt by rust/erase.
//! The packets of a capture, in one pass.

use crate::Fault;
use crate::arrival::Arrival;
use crate::end::show_end;
use crate::fragments::{look_at_joined, refused_fragment};
use crate::options::Options;
use crate::path::Path;
use crate::printed::show_control;
use crate::progress::Progress;
use crate::refusal::Refusal;
use crate::session::Session;
use crate::sight::{Finding, Segment, Sight, look, protocol_category};
use crate::stop::Stop;
use crate::tally::{Counted, Outcome, Tally};
use capture::{Capture, Ending, Next};
use rattle_std::io::{BufReader, BufWriter, Read, Write};
use reassembly::{Answer, Fragment, Reassembly, Whole};

// The bytes of the buffers of input and output.
const BUFFER_LEN: usize = 65_536;

/// The result of the dump of a capture.
pub struct Report<W> {
    /// What ends the capture; None where its reading stopped after as many packets as were asked for.
    pub ending: Option<Ending>,
    /// The counts of its packets.
    pub tally: Tally,
    /// The output, with all that was printed written out.
    pub output: W,
}

/// Prints the packets of a capture.
///
/// What was printed before a fault is written out first, as far as the output takes it.
pub fn run_onto<R: Read, W: Write>(
    options: &Options,
    input: R,
    output: W,
) -> Result<Report<W>, Fault> {
    let Ok(mut output) = BufWriter::with_capacity(BUFFER_LEN, output) else {
        return Err(Fault::Memory);
    };
    let mut tally = Tally::new();
    let ending = dump(options, input, &mut output, &mut tally)?;
    match output.into_inner() {
        Ok(output) => Ok(Report {
            ending,
            tally,
            output,
        }),
        Err(_) => Err(Fault::Write),
    }
}

/// Dumps to an output that has a buffer, and adds to the counts so far.
pub fn dump<R: Read, W: Write>(
    options: &Options,
    input: R,
    output: &mut W,
    tally: &mut Tally,
) -> Result<Option<Ending>, Fault> {
    match dump_readable(options, None, input, output, tally)? {
        Stop::Ended(ending) => Ok(Some(ending)),
        Stop::Enough => Ok(None),
        Stop::Unread => Err(Fault::Read),
    }
}

/// Dumps as far as the input can be read, or as is asked for. Objects of JSON have the name of the file, if there is
/// one.
pub fn dump_readable<R: Read, W: Write>(
    options: &Options,
    file: Option<&str>,
    input: R,
    output: &mut W,
    tally: &mut Tally,
) -> Result<Stop, Fault> {
    let Ok(mut input) = BufReader::with_capacity(BUFFER_LEN, input) else {
        return Err(Fault::Memory);
    };
    let answer = show_capture(options, file, &mut input, output, tally);
    let flushed = output.flush();
    let stop = answer?;
    if stop != Stop::Unread {
        flushed?;
    }
    Ok(stop)
}

// What is kept from packet to packet of a capture.
struct Kept {
    fragments: Reassembly,
    session: Session,
}

// Prints the packets, and then what stands behind them, and returns where the reading stops.
fn show_capture<R: Read, W: Write>(
    options: &Options,
    file: Option<&str>,
    input: &mut BufReader<R>,
    output: &mut W,
    tally: &mut Tally,
) -> Result<Stop, Fault> {
    let mut kept = Kept {
        fragments: Reassembly::new(),
        session: Session::new(),
    };
    let stop = show_packets(options, file, input, output, &mut kept, tally)?;
    show_end(output, options, file, &mut kept.session)?;
    Ok(stop)
}

// Prints the packets, and returns where the reading stops. What is printed is written out before the input is waited
// for.
fn show_packets<R: Read, W: Write>(
    options: &Options,
    file: Option<&str>,
    input: &mut BufReader<R>,
    output: &mut W,
    kept: &mut Kept,
    tally: &mut Tally,
) -> Result<Stop, Fault> {
    let mut capture = Capture::new();
    let mut progress = Progress::new(options);
    for _ in 0..u64::MAX {
        if progress.is_enough() {
            return Ok(Stop::Enough);
        }
        write_out_before_wait(&capture, input, output)?;
        match capture.next(input) {
            Ok(Next::Record(record)) => {
                let arrival = Arrival {
                    file,
                    record: &record,
                    octets: capture.octets(),
                    when: progress.when(record.time),
                };
                let counted = show_packet(options, output, kept, &arrival)?;
                progress.pass(record.time, counted.outcome);
                tally.count(counted, record.link_type, arrival.octets.len() as u64);
            }
            Ok(Next::Ended(ending)) => return Ok(Stop::Ended(ending)),
            Err(capture::Fault::Read) => return Ok(Stop::Unread),
            Err(fault) => return Err(Fault::from(fault)),
        }
    }
    Ok(Stop::Unread)
}

// Writes out what was printed, where the reading of the next packet has to wait for more of the input.
fn write_out_before_wait<R: Read, W: Write>(
    capture: &Capture,
    input: &BufReader<R>,
    output: &mut W,
) -> Result<(), Fault> {
    if !capture.shows_next(input.buffer()) {
        output.flush()?;
    }
    Ok(())
}

// Prints a packet, or the datagram that was put together with it.
fn show_packet<W: Write>(
    options: &Options,
    output: &mut W,
    kept: &mut Kept,
    arrival: &Arrival<'_>,
) -> Result<Counted, Fault> {
    // By reference: to move what was found costs a run of the program 3 % of its instructions.
    match &look(&options.ports, arrival.record, arrival.octets) {
        Finding::Sight(sight) => {
            let outcome = show_sight(options, output, &mut kept.session, arrival, sight)?;
            Ok(Counted::alone(outcome))
        }
        Finding::Fragment(path, fragment) => {
            let counted = show_fragment(options, output, kept, arrival, path, fragment)?;
            Ok(counted)
        }
    }
}

// Puts a fragment to those that are kept, and prints the datagram that is then whole, or why the fragment is refused.
#[inline(never)]
fn show_fragment<W: Write>(
    options: &Options,
    output: &mut W,
    kept: &mut Kept,
    arrival: &Arrival<'_>,
    path: &Path<'_>,
    fragment: &Fragment<'_>,
) -> Result<Counted, Fault> {
    let number = arrival.record.number;
    let Ok(answer) = kept.fragments.add(number, fragment) else {
        return Err(Fault::Memory);
    };
    let session = &mut kept.session;
    match &answer {
        Answer::Incomplete(_) => Ok(Counted::alone(Outcome::Kept(protocol_category(
            fragment.protocol,
        )))),
        Answer::Refused(refusal) => {
            let refusal = Refusal::Fragment(*refusal);
            let outcome = show_refused(options, output, session, arrival, path, fragment, refusal)?;
            Ok(Counted::alone(outcome))
        }
        Answer::Whole(whole) => {
            let counted = show_whole(options, output, session, arrival, path, whole)?;
            Ok(counted)
        }
    }
}

// Prints why a fragment is refused.
fn show_refused<W: Write>(
    options: &Options,
    output: &mut W,
    session: &mut Session,
    arrival: &Arrival<'_>,
    path: &Path<'_>,
    fragment: &Fragment<'_>,
    refusal: Refusal,
) -> Result<Outcome, Fault> {
    let sight = refused_fragment(&options.ports, path, fragment, refusal);
    show_sight(options, output, session, arrival, &sight)
}

// Prints a datagram that was put together with a packet.
fn show_whole<W: Write>(
    options: &Options,
    output: &mut W,
    session: &mut Session,
    arrival: &Arrival<'_>,
    path: &Path<'_>,
    whole: &Whole,
) -> Result<Counted, Fault> {
    let path = Path {
        tags: path.tags,
        tunnels: path.tunnels,
        frames: whole.numbers.as_slice(),
    };
    let sight = look_at_joined(&options.ports, arrival.record, arrival.octets, &path, whole);
    let outcome = show_sight(options, output, session, arrival, &sight)?;
    Ok(Counted {
        outcome,
        joined: all_but_one(whole.numbers.as_slice()),
    })
}

// How many of these packets came before the last one.
fn all_but_one(numbers: &[u64]) -> u64 {
    (numbers.len() as u64).saturating_sub(1)
}

// Prints a packet by what its headers tell, and returns its outcome.
fn show_sight<W: Write>(
    options: &Options,
    output: &mut W,
    session: &mut Session,
    arrival: &Arrival<'_>,
    sight: &Sight<'_>,
) -> Result<Outcome, Fault> {
    match sight {
        Sight::Unread => Ok(Outcome::Unread),
        Sight::Other(category) => Ok(Outcome::Other(*category)),
        Sight::Control(headers) => show_control(options, output, session, arrival, headers),
        Sight::Segment(segment) => show_segment(options, output, session, arrival, segment),
    }
}

// Prints each message in a segment.
#[inline(never)]
fn show_segment<W: Write>(
    options: &Options,
    output: &mut W,
    session: &mut Session,
    arrival: &Arrival<'_>,
    segment: &Segment<'_>,
) -> Result<Outcome, Fault> {
    let mut messages = segment.messages.messages();
    let mut outcome = Outcome::Passed;
    while let Some(message) = messages.next() {
        let headers = segment.headers(message);
        let own = show_control(options, output, session, arrival, &headers)?;
        outcome = joined_outcome(outcome, own);
    }
    Ok(outcome)
}

// What becomes of a packet with several messages, after some and one more.
fn joined_outcome(so_far: Outcome, next: Outcome) -> Outcome {
    match (so_far, next) {
        (Outcome::Passed, next) => next,
        (Outcome::Listed(_), Outcome::Refused(kind, reason)) => Outcome::Refused(kind, reason),
        (so_far, _) => so_far,
    }
}
