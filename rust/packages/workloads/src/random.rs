// Made from crates/workloads/src/random.rt by rust/erase.
//! Numbers and bytes that a seed determines.

use rand_core::{RngCore, SeedableRng};
use rand_xoshiro::Xoshiro256PlusPlus;
use rattle_std::io;
#[allow(unused_imports)]
use rattle_std::prelude::*;

// The bytes of a pool, a power of two.
const POOL_LEN: usize = 131_072;

/// A generator of numbers.
pub struct Random {
    generator: Xoshiro256PlusPlus,
}

impl Random {
    /// The generator that a seed determines.
    pub fn new(seed: u64) -> Random {
        Random {
            generator: Xoshiro256PlusPlus::seed_from_u64(seed),
        }
    }

    /// The next number.
    pub fn next(&mut self) -> u64 {
        self.generator.next_u64()
    }

    /// The next number, below a limit that is not 0.
    pub fn below(&mut self, limit: u32) -> u32 {
        ((self.next() >> 32) as u32) % limit
    }
}

/// Bytes from which parts are taken as data.
pub struct Pool {
    octets: Vec<u8>,
}

impl Pool {
    /// A pool of bytes of this generator.
    pub fn new(random: &mut Random) -> io::Result<Pool> {
        let mut octets = Vec::new();
        for _ in 0..POOL_LEN / 8 {
            for byte in random.next().to_le_bytes() {
                octets.push(byte)?;
            }
        }
        Ok(Pool { octets })
    }

    /// This many bytes of the pool, at most 65,536, from a place on that the number determines.
    pub fn part(&self, number: u64, len: usize) -> &[u8] {
        let octets = self.octets.as_slice();
        let start = ((number % 65_536) as usize).min(octets.len());
        let len = len.min(octets.len() - start);
        &octets[start..start + len]
    }
}
