// Made from crates/dump_captures/src/reports.rt by rust/erase.
//! What the program says on standard error.

use crate::arguments::Wrong;
use crate::summary::write_summary;
use crate::tally::Tally;
use crate::{Fault, help};
use capture::Ending;
use rattle_std::io;
#[allow(unused_imports)]
use rattle_std::prelude::*;
use std::str::from_utf8;

/// Prints that a file can't be opened, and why.
pub fn report_unopened(file: &str, error: &io::Error) {
    let _ = rattle_std::eprintln!("pcapdump: {file}: {error}");
}

/// Prints the number of packets of a capture, or of all captures where they have no name.
pub fn report_counts(name: Option<&str>, tally: &Tally) -> Result<(), Fault> {
    let mut summary = Vec::new();
    write_summary(&mut summary, tally)?;
    if let Ok(summary) = from_utf8(summary.as_slice()) {
        let _ = match name {
            Some(name) => rattle_std::eprintln!("pcapdump: {name}: {summary}"),
            None => rattle_std::eprintln!("pcapdump: {summary}"),
        };
    }
    Ok(())
}

/// Prints what ended a capture if it did not end after a whole record; of a file of gzip how it can be read.
pub fn report_ending(file: &str, ending: Ending, packets: u64, is_gzip: bool) {
    let _ = match (ending, packets) {
        (Ending::Whole, _) => Ok(()),
        (Ending::NotACapture, 0) if is_gzip => {
            rattle_std::eprintln!(
                "pcapdump: {file}: {ending} but a file of gzip: zcat {file} | ./pcapdump"
            )
        }
        (_, 0) => rattle_std::eprintln!("pcapdump: {file}: {ending}"),
        (_, last) => rattle_std::eprintln!("pcapdump: {file}: {ending}, after packet {last}"),
    };
}

/// Prints that an input could not be read further, and why.
pub fn report_unread(file: &str, error: Option<io::Error>, packets: u64) {
    let _ = match (error, packets) {
        (None, _) => rattle_std::eprintln!("pcapdump: {file}: reading failed"),
        (Some(error), 0) => rattle_std::eprintln!("pcapdump: {file}: reading failed: {error}"),
        (Some(error), last) => {
            rattle_std::eprintln!("pcapdump: {file}: reading failed: {error}, after packet {last}")
        }
    };
}

/// Prints what is wrong with the arguments, and the usage.
pub fn report_wrong(wrong: &Wrong) {
    let _ = match wrong {
        Wrong::UnknownOption(word, Some(near)) => {
            rattle_std::eprintln!(
                "pcapdump: unknown option {}; did you mean {near}?",
                word.as_str()
            )
        }
        Wrong::UnknownOption(word, None) => {
            rattle_std::eprintln!("pcapdump: unknown option {}", word.as_str())
        }
        Wrong::UnknownKind(name, near) => {
            report_kind(name.as_str(), *near);
            Ok(())
        }
        Wrong::BadValue(setting, text) => {
            let (option, value) = (setting.name(), setting.value());
            rattle_std::eprintln!("pcapdump: {option} wants {value}, not '{}'", text.as_str())
        }
        Wrong::MissingValue(setting) => {
            let (option, value) = (setting.name(), setting.value());
            rattle_std::eprintln!("pcapdump: {option} wants {value}")
        }
        Wrong::NotText => rattle_std::eprintln!("pcapdump: an argument is not UTF-8"),
    };
    let _ = rattle_std::eprintln!("{}", help::USAGE);
}

// Prints that there is no such kind, and which there are.
fn report_kind(name: &str, near: Option<&'static str>) {
    let kinds = help::KINDS;
    let _ = match near {
        Some(near) => {
            rattle_std::eprintln!(
                "pcapdump: unknown kind '{name}'; did you mean {near}? The kinds are {kinds}"
            )
        }
        None => rattle_std::eprintln!("pcapdump: unknown kind '{name}'; the kinds are {kinds}"),
    };
}

/// Prints what ended the program. A closed output is not a fault.
pub fn report_fault(fault: Fault) {
    let what = match fault {
        Fault::Closed => return,
        Fault::Memory => "there is no memory",
        Fault::Read => "reading failed",
        Fault::Write => "writing failed",
    };
    let _ = rattle_std::eprintln!("pcapdump: {what}");
}
