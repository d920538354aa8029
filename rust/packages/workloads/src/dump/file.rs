// Made from crates/workloads/src/dump/file.rt by rust/erase.
//! Capture files are written by hand, in the order of bytes of common machines.

use crate::dump::frame::{self, MOST_FRAME_LEN, Sources};
use crate::random::Random;
use rattle_std::io;
#[allow(unused_imports)]
use rattle_std::prelude::*;

// The least number of records of a file, and how many more there may be.
const LEAST_RECORDS: u32 = 100;

const MORE_RECORDS: u32 = 101;

// The least number of bytes of a packet that a capture keeps: a few long packets are cut.
const LEAST_KEPT: u32 = 1_100;

// How often a block that is passed over comes between the packets.
const OTHER_EVERY: u32 = 16;

// The link type of Ethernet.
const ETHERNET: u32 = 1;

// The blocks of a pcapng file.
const SECTION_BLOCK: u32 = 0x0a0d_0d0a;

const INTERFACE_BLOCK: u32 = 1;

const STATISTICS_BLOCK: u32 = 5;

const PACKET_BLOCK: u32 = 6;

// The bytes of a packet's block beside the packet.
const PACKET_BLOCK_LEN: u32 = 32;

// Adds numbers of 32 bits to a file.
fn push_words(octets: &mut Vec<u8>, words: &[u32]) -> io::Result<()> {
    for word in words {
        octets.extend_from_slice(&word.to_le_bytes())?;
    }
    Ok(())
}

// The numbers that a packet's record has.
#[derive(Clone, Copy)]
struct Lengths {
    kept: u32,
    original: u32,
}

// The captured lengths of a frame, where at most this many bytes are kept.
fn lengths_of(len: usize, most: u32) -> Lengths {
    let original = len.min(MOST_FRAME_LEN) as u32;
    Lengths {
        kept: original.min(most),
        original,
    }
}

/// Adds a pcap file of some packets.
pub fn write_pcap(octets: &mut Vec<u8>, sources: &Sources, random: &mut Random) -> io::Result<()> {
    let most = LEAST_KEPT + random.below(512);
    push_words(octets, &[0xa1b2_c3d4, 0x0004_0002, 0, 0, most, ETHERNET])?;
    let mut octets_of_frame = [0; MOST_FRAME_LEN];
    for place in 0..LEAST_RECORDS + random.below(MORE_RECORDS) {
        let len = frame::write(&mut octets_of_frame, sources, random).min(MOST_FRAME_LEN);
        let lengths = lengths_of(len, most);
        let time = [1_700_000_000 + place, place * 997];
        push_words(octets, &[time[0], time[1], lengths.kept, lengths.original])?;
        let kept = len.min(lengths.kept as usize);
        octets.extend_from_slice(&octets_of_frame[..kept])?;
    }
    Ok(())
}

/// Adds a pcapng file of some packets, and of some blocks of other kinds.
pub fn write_pcapng(
    octets: &mut Vec<u8>,
    sources: &Sources,
    random: &mut Random,
) -> io::Result<()> {
    let most = LEAST_KEPT + random.below(512);
    let unknown = 0xffff_ffff;
    push_words(
        octets,
        &[SECTION_BLOCK, 28, 0x1a2b_3c4d, 1, unknown, unknown, 28],
    )?;
    push_words(octets, &[INTERFACE_BLOCK, 20, ETHERNET, most, 20])?;
    let mut octets_of_frame = [0; MOST_FRAME_LEN];
    for place in 0..LEAST_RECORDS + random.below(MORE_RECORDS) {
        if place % OTHER_EVERY == 0 {
            push_words(octets, &[STATISTICS_BLOCK, 24, 0, 0x0005_0000, place, 24])?;
        }
        let len = frame::write(&mut octets_of_frame, sources, random).min(MOST_FRAME_LEN);
        let lengths = lengths_of(len, most);
        let kept = len.min(lengths.kept as usize);
        push_block(octets, place, lengths, &octets_of_frame[..kept])?;
    }
    Ok(())
}

// Adds the block of a packet.
fn push_block(octets: &mut Vec<u8>, place: u32, lengths: Lengths, kept: &[u8]) -> io::Result<()> {
    let padding = (4 - kept.len() % 4) % 4;
    let total_len = PACKET_BLOCK_LEN + (kept.len().min(MOST_FRAME_LEN) + padding) as u32;
    push_words(octets, &[PACKET_BLOCK, total_len, 0, 0x0005_0000])?;
    push_words(octets, &[place, lengths.kept, lengths.original])?;
    octets.extend_from_slice(kept)?;
    octets.extend_from_slice(&[0; 4][..padding])?;
    push_words(octets, &[total_len])
}
