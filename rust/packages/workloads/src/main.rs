// Made from crates/workloads/src/main.rt by rust/erase.
//! The jobs that a user of the library waits for, for measurements.
//!
//! `workloads JOB SEED [ROUNDS]` does a job on the input that the seed determines, and prints a digest of its results.
//! Without a number of rounds it does as many as take some seconds. With no word each job is done on a small input.

mod awkward;
mod digest;
mod dump;
mod echoes;
mod hosts;
mod leases;
mod random;
mod responses;

use rattle_std::{env, io};

// What a job is done on where no word names one.
const SMALL_SEED: u64 = 1;

const SMALL_ROUNDS: u32 = 20;

// A job.
#[derive(Clone, Copy)]
enum Job {
    // An analyst prints what captures hold.
    Dump,
    // A resolver reads responses.
    Responses,
    // A server of DHCP answers its clients.
    Leases,
    // Hosts and routers speak with their neighbors.
    Hosts,
    // A host answers echo requests, and sends errors.
    Echoes,
    // All of these read untrusted input.
    Awkward,
}

const JOBS: [Job; 6] = [
    Job::Dump,
    Job::Responses,
    Job::Leases,
    Job::Hosts,
    Job::Echoes,
    Job::Awkward,
];

impl Job {
    // The word that names the job.
    fn name(self) -> &'static str {
        match self {
            Job::Dump => "dump",
            Job::Responses => "responses",
            Job::Leases => "leases",
            Job::Hosts => "hosts",
            Job::Echoes => "echoes",
            Job::Awkward => "awkward",
        }
    }

    // The number of rounds of a measurement where none is given, each on other input.
    fn rounds(self) -> u32 {
        match self {
            Job::Dump => 8_000,
            Job::Responses => 150_000,
            Job::Leases => 1_200_000,
            Job::Hosts => 1_600_000,
            Job::Echoes => 1_200_000,
            Job::Awkward => 130_000,
        }
    }

    // Does the job, and returns a digest of its results.
    fn digest(self, seed: u64, rounds: u32) -> io::Result<u64> {
        match self {
            Job::Dump => dump::digest(seed, rounds),
            Job::Responses => responses::digest(seed, rounds),
            Job::Leases => leases::digest(seed, rounds),
            Job::Hosts => hosts::digest(seed, rounds),
            Job::Echoes => echoes::digest(seed, rounds),
            Job::Awkward => awkward::digest(seed, rounds),
        }
    }
}

fn main() -> io::Result<()> {
    let mut words = env::args()?.skip(1);
    let Some(name) = words.next() else {
        for job in JOBS {
            print(job, job.digest(SMALL_SEED, SMALL_ROUNDS)?)?;
        }
        return Ok(());
    };
    let seed = match words.next() {
        Some(word) => word.as_str().parse::<u64>().unwrap_or(SMALL_SEED),
        None => SMALL_SEED,
    };
    let rounds = match words.next() {
        Some(word) => word.as_str().parse::<u32>().ok(),
        None => None,
    };
    for job in JOBS {
        if job.name() == name.as_str() {
            let rounds = rounds.unwrap_or(job.rounds());
            print(job, job.digest(seed, rounds)?)?;
        }
    }
    Ok(())
}

// Prints the digest of a job.
fn print(job: Job, digest: u64) -> io::Result<()> {
    rattle_std::println!("{:<9} {digest:016x}", job.name())
}
