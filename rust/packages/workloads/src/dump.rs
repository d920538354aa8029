// Made from crates/workloads/src/dump.rt by rust/erase.
//! An analyst reads captures of a link: each record's frame, its datagram, and the message in that.

#[allow(unused_imports)]
use rattle_std::prelude::*;
mod file;
mod frame;
mod reading;

use crate::digest::Digest;
use crate::dump::frame::Sources;
use crate::random::{Pool, Random};
use crate::responses::message::Letters;
use rattle_std::io::{self, BufReader};

// The size of a buffer that is too small for many records.
const SHORT_BUFFER_LEN: usize = 512;

/// Writes a capture in each round, another each time, reads it, and returns a digest of what was read.
// Not inlined: beside the other jobs, this code would change the registers that theirs get.
#[inline(never)]
pub fn digest(seed: u64, rounds: u32) -> io::Result<u64> {
    let mut random = Random::new(seed);
    let pool = Pool::new(&mut random)?;
    let letters = Letters::new(&mut random)?;
    let sources = Sources { pool, letters };
    let mut digest = Digest::new();
    let mut octets = Vec::new();
    for round in 0..rounds {
        octets.clear();
        if round % 2 == 0 {
            file::write_pcap(&mut octets, &sources, &mut random)?;
        } else {
            file::write_pcapng(&mut octets, &sources, &mut random)?;
        }
        read(round / 2, octets.as_slice(), &mut digest)?;
    }
    Ok(digest.value())
}

// Reads a capture: by turns in place, through a buffer of std's size, and through a short one.
fn read(turn: u32, octets: &[u8], digest: &mut Digest) -> io::Result<()> {
    let mut input = octets;
    match turn % 3 {
        0 => reading::read(&mut input, octets.len(), digest),
        1 => {
            let mut input = BufReader::new(input)?;
            reading::read(&mut input, octets.len(), digest);
        }
        _ => {
            let mut input = BufReader::with_capacity(SHORT_BUFFER_LEN, input)?;
            reading::read(&mut input, octets.len(), digest);
        }
    }
    Ok(())
}
