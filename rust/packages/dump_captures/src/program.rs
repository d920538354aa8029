// Made from crates/dump_captures/src/program.rt by rust/erase.
//! The program: its arguments, its files and its status.

use crate::arguments::{Task, Wrong, read_task};
use crate::files::{Captures, FAILED, WHOLE, WRONG, dump_all};
use crate::options::{Color, Options};
use crate::reports::{report_fault, report_wrong};
use crate::{Fault, help};
use rattle_std::env::VarError;
use rattle_std::io::{BufWriter, Write};
#[allow(unused_imports)]
use rattle_std::prelude::*;
use rattle_std::{env, fs, io};

// The bytes of the output's buffer.
const BUFFER_LEN: usize = 65_536;

// The standard input and the files of the machine.
struct Machine {}

impl Captures for Machine {
    type Reader = io::Stdin;

    type File = fs::File;

    fn reader(&self) -> Self::Reader {
        io::reader()
    }

    // A directory can be opened too, but not read.
    fn open(&self, name: &str) -> io::Result<Self::File> {
        if fs::metadata(name)?.is_dir() {
            return Err(io::Error::from(io::ErrorKind::IsADirectory));
        }
        fs::open(name)
    }
}

/// The whole of `pcapdump`: prints what the files that the arguments name hold, and returns the program's status. Is
/// told whether standard output is a terminal.
pub fn run_program(is_terminal: bool) -> u8 {
    let task = match env::args() {
        Ok(arguments) => read_task(arguments),
        Err(error) if error.kind() == io::ErrorKind::InvalidData => {
            Ok(Task::Unknown(Wrong::NotText))
        }
        Err(_) => Err(Fault::Memory),
    };
    match task {
        Ok(Task::Dump(options, files)) => {
            let options = with_color(options, is_terminal);
            dump_files(&options, files.as_slice())
        }
        Ok(Task::Help) => print_help(),
        Ok(Task::Version) => print_version(),
        Ok(Task::Unknown(wrong)) => {
            report_wrong(&wrong);
            WRONG
        }
        Err(fault) => end_by(fault),
    }
}

// The options with colors where the usual choice is to have them: on a terminal, unless NO_COLOR forbids them.
fn with_color(options: Options, is_terminal: bool) -> Options {
    let mut options = options;
    if options.color == Color::Auto && is_terminal && !forbids_color() {
        options.color = Color::Always;
    }
    options
}

// Whether the environment has a variable NO_COLOR that is not empty (https://no-color.org).
fn forbids_color() -> bool {
    match env::var("NO_COLOR") {
        Ok(value) => !value.as_str().is_empty(),
        Err(VarError::NotPresent) => false,
        Err(_) => true,
    }
}

// Prints the help, and returns the status.
fn print_help() -> u8 {
    match rattle_std::println!("{}\n\n{}", help::USAGE, help::HELP) {
        Ok(()) => WHOLE,
        Err(error) => end_by(Fault::from(error)),
    }
}

// Prints the version, and returns the status.
fn print_version() -> u8 {
    match rattle_std::println!("pcapdump {}", help::VERSION) {
        Ok(()) => WHOLE,
        Err(error) => end_by(Fault::from(error)),
    }
}

// Prints the captures of these files, and returns the highest of their statuses.
fn dump_files(options: &Options, files: &[String]) -> u8 {
    let Ok(mut output) = BufWriter::with_capacity(BUFFER_LEN, io::writer()) else {
        return end_by(Fault::Memory);
    };
    let mut status = WHOLE;
    let machine = Machine {};
    let answer = dump_all(&machine, options, files, &mut output, &mut status);
    // What a fault left in the buffer precedes the fault's message.
    let flushed = output.flush();
    match (answer, flushed) {
        (Ok(()), Ok(())) => status,
        (Err(fault), _) => status.max(end_by(fault)),
        (_, Err(error)) => status.max(end_by(Fault::from(error))),
    }
}

// Prints what ended the program, and returns the status. A closed output is not a fault.
fn end_by(fault: Fault) -> u8 {
    report_fault(fault);
    match fault {
        Fault::Closed => WHOLE,
        Fault::Memory | Fault::Read | Fault::Write => FAILED,
    }
}
