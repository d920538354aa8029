// Made from crates/tests_pcapdump/src/pcapdump.rt by rust/erase.
//! What captures print, what is counted of them, and what is said where reading or writing fails.

mod arguments;
mod brief;
mod counts;
mod faults;
mod forms;
mod live;
mod options;
mod packets;
mod refusal;
mod services;
mod statistics;
mod time;

use dump_captures::options::Options;

/// All packets are printed.
const PRINTED: Options = Options::ALL;
