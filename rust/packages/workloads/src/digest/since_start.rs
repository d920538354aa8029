// Made from crates/workloads/src/digest/since_start.rt by rust/erase.
//! What the library gives in other types than the start did, which docs/PERF.md names. Where the jobs are built over
//! the start, bench/since_start.txt takes the place of this file.

use capture::{Ending, Time};
use control_wire::frames::Refusal;

/// The seconds and the nanoseconds of a record's time: 0 where it has none.
pub fn since_1970(time: &Option<Time>) -> (u64, u32) {
    let time = time.unwrap_or(Time::ZERO);
    (time.seconds, time.nanoseconds)
}

/// The number of what ends a capture.
pub fn ending_number(ending: Ending) -> u8 {
    match ending {
        Ending::Whole => 0,
        Ending::Cut => 1,
        Ending::TooLarge | Ending::TooManyInterfaces => 2,
        Ending::Malformed(_) => 3,
        Ending::Version => 4,
        Ending::NotACapture => 5,
    }
}

/// The number of a reason why octets are no datagram.
pub fn refusal_number(refusal: Refusal) -> u8 {
    match refusal {
        Refusal::Short | Refusal::Cut(_) => 0,
        Refusal::Version(_)
        | Refusal::HeaderLen(_)
        | Refusal::TotalLen(_)
        | Refusal::Jumbogram
        | Refusal::Extension(_) => 1,
        Refusal::Fragment(_) => 2,
        _ => unreachable!(),
    }
}
