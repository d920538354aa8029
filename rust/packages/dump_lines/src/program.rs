// Made from crates/dump_lines/src/program.rt by rust/erase.
//! The program: its arguments, what it says on standard error, and its status.

use crate::{Fault, run, status};
use rattle_std::{env, io};

// The exit status where an argument is given.
const USAGE_STATUS: u8 = 2;

// Whether there is an argument after the program's name.
fn has_arguments() -> Result<bool, Fault> {
    match env::args() {
        Ok(mut arguments) => Ok(arguments.nth(1).is_some()),
        // An argument that is not UTF-8 counts too.
        Err(error) if error.kind() == io::ErrorKind::InvalidData => Ok(true),
        Err(error) if error.kind() == io::ErrorKind::OutOfMemory => Err(Fault::Memory),
        Err(_) => Err(Fault::Read),
    }
}

/// The whole of `wiredump`: prints what the lines of standard input hold, and returns the program's status.
pub fn run_program() -> u8 {
    let answer = match has_arguments() {
        Ok(true) => {
            let _ = rattle_std::eprintln!("usage: wiredump");
            return USAGE_STATUS;
        }
        Ok(false) => run(io::reader(), io::writer()),
        Err(fault) => Err(fault),
    };
    if answer.is_err() {
        let _ = rattle_std::eprintln!("wiredump: failed");
    }
    status(&answer)
}
