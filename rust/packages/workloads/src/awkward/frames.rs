// Made from crates/workloads/src/awkward/frames.rt by rust/erase.
//! Frames with many tags and headers, also cut short, and captures of blocks that are passed over.

use super::options::PACKET_LEN;
use crate::digest::Digest;
use crate::digest::frames::{add_datagram, add_frame, add_record};
use crate::digest::since_start::{ending_number, refusal_number};
use crate::random::Pool;
use byteorder::{BigEndian, ByteOrder, LittleEndian};
use capture::{Capture, Next};
use control_wire::frames::{Datagram, Link, Network, UdpPacket};
use rattle_std::io::{self, BufRead, BufReader};

/// The bytes of the longest capture here.
pub const CAPTURE_LEN: usize = 32_768;

// The most blocks of a capture, and the bytes of the longest one.
const BLOCKS: usize = 400;

const BLOCK_LEN: usize = 80;

// The size of a buffer that holds only the shorter blocks.
const BUFFER_LEN: usize = 64;

/// Reads a frame with tags and headers that extend IPv6, whole and cut short.
pub fn read_frame(number: u64, pool: &Pool, octets: &mut [u8; PACKET_LEN], digest: &mut Digest) {
    octets.fill(0);
    let tags = (number % 5) as usize;
    for tag in 0..tags {
        BigEndian::write_u32(
            &mut octets[12 + 4 * tag..16 + 4 * tag],
            0x8100_0000 + ((number >> 40) % 4096) as u32,
        );
    }
    let start = 14 + 4 * tags;
    BigEndian::write_u16(&mut octets[start - 2..start], 0x86dd);
    octets[start] = 0x60;
    octets[start + 6] = 0;
    BigEndian::write_u64(&mut octets[start + 8..start + 16], number);
    let headers = 1 + ((number >> 8) % 6) as usize;
    for header in 0..headers {
        let at = start + 40 + 16 * header;
        octets[at] = if header + 1 == headers { 17 } else { 60 };
        octets[at + 1] = 1;
    }
    let at = start + 40 + 16 * headers;
    let data = pool.part(number, 40);
    octets[at + 8..at + 8 + data.len()].copy_from_slice(data);
    BigEndian::write_u64(&mut octets[at..at + 8], 0x1000_2000_0000_0000 + 48 * 65_536);
    BigEndian::write_u16(&mut octets[start + 4..start + 6], 16 * headers as u16 + 48);
    let end = at + 48;
    parse_frame(&octets[..end], digest);
    parse_frame(&octets[..end - 1 - ((number >> 16) % 60) as usize], digest);
}

// Reads a frame.
fn parse_frame(octets: &[u8], digest: &mut Digest) {
    let Ok(frame) = Link::Ethernet.frame(octets) else {
        digest.add(1);
        return;
    };
    digest.add(frame.vlans() as u64);
    add_frame(&frame, digest);
    if frame.network != Network::Ipv6 {
        return;
    }
    match Datagram::parse_v6(frame.payload) {
        Ok(datagram) => {
            add_datagram(&datagram, digest);
            parse_udp(datagram.payload, digest);
        }
        Err(refusal) => digest.add(refusal_number(refusal) as u64),
    }
}

// Reads a UDP datagram.
fn parse_udp(octets: &[u8], digest: &mut Digest) {
    let Ok(packet) = UdpPacket::new_checked(octets) else {
        digest.add(2);
        return;
    };
    digest.add(packet.src_port() as u64);
    digest.add(packet.dst_port() as u64);
    digest.add(packet.len() as u64);
    digest.add(packet.checksum() as u64);
    digest.add_ends(packet.payload());
}

/// Reads a capture of blocks that are passed over, with a short packet after each eighth of them; every other capture
/// through a buffer that is too small for the longer blocks.
pub fn read_capture(number: u64, octets: &mut [u8], digest: &mut Digest) -> io::Result<()> {
    let len = write_capture(number, octets);
    let mut input = &octets[..len.min(octets.len())];
    if number % 2 == 0 {
        read_blocks(&mut input, digest);
    } else {
        let mut input = BufReader::with_capacity(BUFFER_LEN, input)?;
        read_blocks(&mut input, digest);
    }
    Ok(())
}

// Reads a capture to its end.
fn read_blocks<R: BufRead>(input: &mut R, digest: &mut Digest) {
    let mut capture = Capture::new();
    for _ in 0..BLOCKS {
        match capture.next(input) {
            Ok(Next::Record(record)) => {
                add_record(&record, capture.octets(), digest);
            }
            Ok(Next::Ended(ending)) => {
                digest.add(ending_number(ending) as u64);
                break;
            }
            Err(fault) => digest.add(16 + fault as u64),
        }
    }
}

// Writes a capture, and returns its length in bytes.
#[allow(clippy::manual_memcpy)] // of this form the bounds need no proof file
fn write_capture(number: u64, octets: &mut [u8]) -> usize {
    const FRONT: [u8; 48] = [
        0x0a, 0x0d, 0x0d, 0x0a, 28, 0, 0, 0, 0x4d, 0x3c, 0x2b, 0x1a, 1, 0, 0, 0, 0xff, 0xff, 0xff,
        0xff, 0xff, 0xff, 0xff, 0xff, 28, 0, 0, 0, 1, 0, 0, 0, 20, 0, 0, 0, 1, 0, 0, 0, 0, 0, 4, 0,
        20, 0, 0, 0,
    ];
    if octets.len() < CAPTURE_LEN {
        return 0;
    }
    for place in 0..48 {
        octets[place] = FRONT[place];
    }
    let mut at = 48;
    for block in 0..BLOCKS {
        let turned = number.rotate_left(block as u32 % 64);
        let len = 32 + 4 * (turned % 12) as usize;
        let kind = if block % 8 == 7 {
            6
        } else {
            4 + (turned % 2) as u32
        };
        if at <= CAPTURE_LEN - BLOCK_LEN && octets.len() >= CAPTURE_LEN {
            write_block(kind, turned, &mut octets[at..at + len]);
            at += len;
        }
    }
    at
}

// Writes a block into octets of its length.
fn write_block(kind: u32, number: u64, octets: &mut [u8]) {
    let len = octets.len();
    if len < 32 || len > BLOCK_LEN {
        return;
    }
    octets.fill(0);
    LittleEndian::write_u32(&mut octets[..4], kind);
    LittleEndian::write_u32(&mut octets[4..8], len as u32);
    LittleEndian::write_u64(&mut octets[12..20], number % 1_000_000_007);
    LittleEndian::write_u32(&mut octets[20..24], len as u32 - 32);
    LittleEndian::write_u32(&mut octets[24..28], 1_500);
    LittleEndian::write_u32(&mut octets[len - 4..], len as u32);
}
