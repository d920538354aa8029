// Made from crates/workloads/src/responses.rt by rust/erase.
//! A resolver reads responses, and a log of queries reads the names that are asked for.

pub mod message;

use crate::digest::Digest;
use crate::random::Random;
use crate::responses::message::Letters;
use control_wire::dns::{Flags, Opcode, Packet, Question, Repr, Type};
use control_wire::record::Name;
use rattle_std::io;

// The bytes that a message is written in, and the most that one has.
const BUFFER_LEN: usize = 1_536;

const MOST_LEN: usize = 1_500;

// The most octets of a name that is asked for.
const NAME_LEN: usize = 72;

/// Reads a response and a query in each round, others each time, and returns a digest of what was read.
pub fn digest(seed: u64, rounds: u32) -> io::Result<u64> {
    let mut random = Random::new(seed);
    let letters = Letters::new(&mut random)?;
    let mut digest = Digest::new();
    let mut octets = [0; BUFFER_LEN];
    for _ in 0..rounds {
        respond(&mut random, &letters, &mut octets, &mut digest);
        query(&mut random, &letters, &mut octets, &mut digest);
    }
    Ok(digest.value())
}

// Writes a response of 2 to 30 records, and reads it.
fn respond(random: &mut Random, letters: &Letters, octets: &mut [u8], digest: &mut Digest) {
    let records = 2 + random.below(29);
    let room = octets.len().min(MOST_LEN);
    let len = message::write(&mut octets[..room], letters, random, records);
    message::read(&octets[..len.min(octets.len())], digest);
}

// Writes a query, and reads the name that it asks for.
fn query(random: &mut Random, letters: &Letters, octets: &mut [u8], digest: &mut Digest) {
    let number = random.next();
    let mut name = [0; NAME_LEN];
    let end = message::write_name(&mut name, letters, number).min(NAME_LEN);
    let query = Repr {
        transaction_id: (number % 65_536) as u16,
        opcode: Opcode::Query,
        flags: Flags::RECURSION_DESIRED,
        question: Question {
            name: &name[..end],
            type_: Type::Aaaa,
        },
    };
    let len = query.buffer_len();
    if len > octets.len() {
        return;
    }
    query.emit_into(&mut octets[..len]);
    message::read(&octets[..len], digest);
}
