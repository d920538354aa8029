// Made from crates/workloads/src/awkward.rt by rust/erase.
//! Untrusted input: packets that take long to read, and packets that are refused.

mod frames;
mod names;
mod options;

use crate::digest::Digest;
use crate::random::{Pool, Random};
use control_wire::checksum;
use rattle_std::io;

// A chain of pointers and a capture take as long as many packets, and are read once in this many rounds.
const CHAIN_EVERY: u32 = 64;

const CAPTURE_EVERY: u32 = 16;

/// Reads packets of all kinds, in each round others, and returns a digest of what was read.
// Not inlined: beside the other jobs, this code would change the registers that theirs get.
#[inline(never)]
pub fn digest(seed: u64, rounds: u32) -> io::Result<u64> {
    let mut random = Random::new(seed);
    let pool = Pool::new(&mut random)?;
    let mut digest = Digest::new();
    let mut chain = rattle_std::vec![ 0; names::CHAIN_LEN]?;
    names::write_chain(chain.as_mut_slice());
    let mut capture = rattle_std::vec![ 0; frames::CAPTURE_LEN]?;
    let mut octets = [0; names::PIECES_LEN];
    let mut packet = [0; options::PACKET_LEN];
    for round in 0..rounds {
        let number = random.next();
        names::read_pieces(number, &mut octets, &mut digest);
        if round % CHAIN_EVERY == 0 {
            names::read_chain(number, chain.as_slice(), &mut digest);
        }
        options::read_lease(number, &mut packet, &mut digest);
        options::read_neighbor(number, &mut packet, &mut digest);
        options::read_header(number, &mut packet, &mut digest);
        frames::read_frame(number, &pool, &mut packet, &mut digest);
        if round % CAPTURE_EVERY == 0 {
            let number = random.next();
            frames::read_capture(number, capture.as_mut_slice(), &mut digest)?;
        }
        for len in 1..20 {
            let part = pool.part(number.rotate_left(3 * len as u32), len);
            digest.add(checksum::data(part) as u64);
        }
    }
    Ok(digest.value())
}
