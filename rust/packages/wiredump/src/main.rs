// Made from crates/wiredump/src/main.rt by rust/erase.
//! Prints what packets hold, each packet in a line of standard input.
//!
//! A line says how to read a packet and gives its octets in hexadecimal, as `hbh 010400000000`.

use dump_lines::run_program;
use std::process::ExitCode;

fn main() -> ExitCode {
    ExitCode::from(run_program())
}
