//! Captures of both formats, read from a slice and through a buffer.

use crate::measure::{Case, measured};
use crate::random::Random;
use capture::{Capture, Next};
use rattle_std::io::{BufRead, BufReader};
use std::hint::black_box;

// The packets of a capture.
const PACKETS: u32 = 256;

// The blocks of a pcapng file.
const SECTION_BLOCK: u32 = 0x0a0d_0d0a;
const INTERFACE_BLOCK: u32 = 1;
const STATISTICS_BLOCK: u32 = 5;
const PACKET_BLOCK: u32 = 6;

fn push_words(octets: &mut Vec<u8>, words: &[u32]) {
    for word in words {
        octets.extend_from_slice(&word.to_le_bytes());
    }
}

fn pcap(random: &mut Random) -> Vec<u8> {
    let mut octets = Vec::new();
    push_words(&mut octets, &[0xa1b2_c3d4, 0x0004_0002, 0, 0, 65_536, 1]);
    for place in 0..PACKETS {
        let len = 42 + random.below(158) as u32;
        let time = [1_700_000_000 + place, random.below(1_000_000) as u32];
        push_words(&mut octets, &[time[0], time[1], len, len]);
        octets.extend_from_slice(&random.octets(len as usize));
    }
    octets
}

fn pcapng(random: &mut Random) -> Vec<u8> {
    let mut octets = Vec::new();
    let unknown = 0xffff_ffff;
    push_words(
        &mut octets,
        &[SECTION_BLOCK, 28, 0x1a2b_3c4d, 1, unknown, unknown, 28],
    );
    push_words(&mut octets, &[INTERFACE_BLOCK, 20, 1, 65_536, 20]);
    for place in 0..PACKETS {
        if place % 16 == 0 {
            push_words(
                &mut octets,
                &[STATISTICS_BLOCK, 24, 0, 0x0005_0000, place, 24],
            );
        }
        let len = 42 + random.below(158) as u32;
        let padding = (4 - len % 4) % 4;
        let total = 32 + len + padding;
        push_words(&mut octets, &[PACKET_BLOCK, total, 0, 0x0005_0000]);
        push_words(&mut octets, &[random.u32(), len, len]);
        octets.extend_from_slice(&random.octets(len as usize));
        octets.extend_from_slice(&[0; 4][..padding as usize]);
        push_words(&mut octets, &[total]);
    }
    octets
}

// A case of `Capture::next`.
fn next<R: BufRead>(name: &'static str, input: &mut R) {
    let mut case = Case::new(name);
    let mut capture = Capture::new();
    loop {
        let next = measured(
            |(capture, input): (&mut Capture, &mut R)| capture.next(input),
            black_box((&mut capture, &mut *input)),
        );
        let Ok(Next::Record(record)) = next else {
            case.add(next);
            break;
        };
        // The time, whose type is not the same in all commits, stands in the listing of pcapdump.
        case.add((
            record.number,
            record.link_type,
            record.captured_len,
            record.original_len,
        ));
        case.add_octets(capture.octets());
    }
    case.end();
}

/// The cases.
pub fn cases() {
    let mut random = Random::new(120);
    let pcap = pcap(&mut random);
    let pcapng = pcapng(&mut random);
    next("capture_next_of_a_slice", &mut &pcap[..]);
    next("capture_next_of_a_buffer", &mut buffered(&pcap));
    next("capture_next_of_a_slice_pcapng", &mut &pcapng[..]);
    next("capture_next_of_a_buffer_pcapng", &mut buffered(&pcapng));
    #[cfg(feature = "later")]
    later(&pcap, &pcapng);
}

fn buffered(octets: &[u8]) -> BufReader<&[u8]> {
    BufReader::new(octets).unwrap()
}

#[cfg(feature = "later")]
fn later(pcap: &[u8], pcapng: &[u8]) {
    let mut case = Case::new("capture_records_read");
    let mut times = Vec::new();
    for octets in [pcap, pcapng] {
        let mut records = Capture::new().records(octets);
        while let Some((record, octets)) =
            measured(capture::Records::read, black_box(&mut records)).unwrap()
        {
            case.add(record);
            case.add_octets(octets);
            times.extend(record.time);
        }
    }
    case.end();
    crate::measure::prints("capture_time_display", &times);
    let mut case = Case::new("capture_shows_next");
    for octets in [pcap, pcapng] {
        let mut capture = Capture::new();
        let mut input = octets;
        for len in 0..64 {
            let _ = capture.next(&mut input);
            let shown = &input[..input.len().min(4 * len)];
            case.add(measured(
                |(capture, shown): (&Capture, &[u8])| capture.shows_next(shown),
                black_box((&capture, shown)),
            ));
        }
    }
    case.end();
}
