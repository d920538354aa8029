// Made from crates/pcapdump/src/main.rt by rust/erase.
//! Prints what the control packets of capture files hold.

use dump_captures::run_program;
use rattle_std::io::IsTerminal;
use std::process::ExitCode;

fn main() -> ExitCode {
    let is_terminal = std::io::stdout().is_terminal();
    ExitCode::from(run_program(is_terminal))
}
