// Made from crates/dump_captures/src/arguments.rt by rust/erase.
//! The arguments of the program.

use crate::Fault;
use crate::host::Host;
use crate::nearest::nearest;
pub use crate::only::read_only;
use crate::options::Options;
use crate::settings::{Setting, color_in, count_in, setting_of, split, time_form_in};
use control_wire::record::Name;
use packet_fields::Form;
use rattle_std::env::Args;
#[allow(unused_imports)]
use rattle_std::prelude::*;

/// What the program is asked to do.
pub enum Task {
    /// To print the help.
    Help,
    /// To print the version.
    Version,
    /// To print the captures of these files, or of standard input where there are none.
    Dump(Options, Vec<String>),
    /// Something unknown.
    Unknown(Wrong),
}

/// What is wrong with the arguments.
pub enum Wrong {
    /// This is not an option; the one that is nearest.
    UnknownOption(String, Option<&'static str>),
    /// This item of a list of kinds is none; the name that is nearest.
    UnknownKind(String, Option<&'static str>),
    /// This is not a value of the option.
    BadValue(Setting, String),
    /// No value follows the option.
    MissingValue(Setting),
    /// An argument is not UTF-8, and so none was read.
    NotText,
}

// The options, and the names of packets, for a word that is neither.
const OPTIONS: [&str; 15] = [
    "--only",
    "--host",
    "--name",
    "--time",
    "--port",
    "--color",
    "--count",
    "--json",
    "--brief",
    "--pairs",
    "--stats",
    "--verbose",
    "--strict",
    "--help",
    "--version",
];

const NAMES: [&str; 11] = [
    "icmp4", "igmp", "icmp6", "dns", "mdns", "llmnr", "nbns", "dhcp", "frame", "icmp", "hbh",
];

// The arguments so far.
struct Reading {
    // The options so far.
    options: Options,
    // The texts of the host and of the name.
    host: Option<String>,
    name: Option<String>,
    files: Vec<String>,
    // The option whose value the next argument is.
    wants: Option<Setting>,
    // Whether all further arguments are files.
    wants_files: bool,
}

// The effect of an argument.
enum Step {
    // More arguments are read.
    More,
    // The task.
    Help,
    Version,
    Unknown(Wrong),
}

/// The task of these arguments, the first of which is the program's name.
pub fn read_task(arguments: Args) -> Result<Task, Fault> {
    let mut reading = Reading::new();
    for argument in arguments.skip(1) {
        match reading.read(argument)? {
            Step::More => (),
            Step::Help => return Ok(Task::Help),
            Step::Version => return Ok(Task::Version),
            Step::Unknown(wrong) => return Ok(Task::Unknown(wrong)),
        }
    }
    Ok(reading.task())
}

impl Reading {
    // None.
    fn new() -> Reading {
        Reading {
            options: Options::ALL,
            host: None,
            name: None,
            files: Vec::new(),
            wants: None,
            wants_files: false,
        }
    }

    // The task where no further argument follows.
    fn task(self) -> Task {
        let Reading {
            options,
            host,
            name,
            files,
            wants,
            ..
        } = self;
        if let Some(setting) = wants {
            return Task::Unknown(Wrong::MissingValue(setting));
        }
        let options = match with_host(options, host) {
            Ok(options) => options,
            Err(wrong) => return Task::Unknown(wrong),
        };
        match with_name_of(options, name) {
            Ok(options) => Task::Dump(options, files),
            Err(wrong) => Task::Unknown(wrong),
        }
    }

    // Reads an argument.
    fn read(&mut self, argument: String) -> Result<Step, Fault> {
        if let Some(setting) = self.wants {
            self.wants = None;
            return self.read_value(setting, argument);
        }
        if self.wants_files || !is_option(argument.as_str()) {
            let Ok(()) = self.files.push(argument) else {
                return Err(Fault::Memory);
            };
            return Ok(Step::More);
        }
        match self.read_flag(argument.as_str()) {
            Some(step) => Ok(step),
            None => self.read_setting(argument),
        }
    }

    // Reads an option that has no value.
    fn read_flag(&mut self, word: &str) -> Option<Step> {
        if word == "--count" {
            self.options.prints = false;
            return Some(Step::More);
        }
        if word == "--json" {
            self.options.form = Form::Json;
            self.options.is_brief = false;
            return Some(Step::More);
        }
        if word == "--brief" || word == "-1" {
            self.options.form = Form::Lines;
            self.options.is_brief = true;
            return Some(Step::More);
        }
        if word == "--verbose" || word == "-v" {
            self.options.is_verbose = true;
            return Some(Step::More);
        }
        if word == "--pairs" {
            self.options.pairs = true;
            return Some(Step::More);
        }
        if word == "--stats" {
            self.options.stats = true;
            return Some(Step::More);
        }
        if word == "--strict" {
            self.options.is_strict = true;
            return Some(Step::More);
        }
        if word == "--" {
            self.wants_files = true;
            return Some(Step::More);
        }
        if word == "-n" || word == "-r" {
            return Some(Step::More);
        }
        if word == "-nn" || word == "-nr" {
            return Some(Step::More);
        }
        if word == "--help" || word == "-h" {
            return Some(Step::Help);
        }
        if word == "--version" || word == "-V" {
            return Some(Step::Version);
        }
        None
    }

    // Reads an option that has a value, which the same word may hold.
    fn read_setting(&mut self, word: String) -> Result<Step, Fault> {
        let (option, value) = split(word.as_str(), '=');
        let Some(setting) = setting_of(option) else {
            let near = nearest(option, &OPTIONS)?;
            return Ok(Step::Unknown(Wrong::UnknownOption(word, near)));
        };
        let Some(value) = value else {
            self.wants = Some(setting);
            return Ok(Step::More);
        };
        let value = copy_of(value)?;
        self.read_value(setting, value)
    }

    // Reads the value of an option.
    fn read_value(&mut self, setting: Setting, text: String) -> Result<Step, Fault> {
        match setting {
            Setting::Only => self.read_kinds(text.as_str()),
            Setting::Most => Ok(self.read_most(text)),
            Setting::Host => {
                self.host = Some(text);
                Ok(Step::More)
            }
            Setting::Name => {
                self.name = Some(text);
                Ok(Step::More)
            }
            Setting::Time => Ok(self.read_time_form(text)),
            Setting::Port => Ok(self.read_port(text)),
            Setting::Color => Ok(self.read_color(text)),
        }
    }

    // Reads a list of names after `--only`.
    fn read_kinds(&mut self, list: &str) -> Result<Step, Fault> {
        match read_only(list) {
            Ok(only) => {
                self.options.only = only;
                Ok(Step::More)
            }
            Err(name) => {
                let near = nearest(name, &NAMES)?;
                Ok(Step::Unknown(Wrong::UnknownKind(copy_of(name)?, near)))
            }
        }
    }

    // Reads the number after `-c`.
    fn read_most(&mut self, text: String) -> Step {
        let Some(most) = count_in(text.as_str()) else {
            return Step::Unknown(Wrong::BadValue(Setting::Most, text));
        };
        self.options.most = Some(most);
        Step::More
    }

    // Reads the form after `--time`.
    fn read_time_form(&mut self, text: String) -> Step {
        let Some(time_form) = time_form_in(text.as_str()) else {
            return Step::Unknown(Wrong::BadValue(Setting::Time, text));
        };
        self.options.time_form = Some(time_form);
        Step::More
    }

    // Reads where lines are colored, after `--color`.
    fn read_color(&mut self, text: String) -> Step {
        let Some(color) = color_in(text.as_str()) else {
            return Step::Unknown(Wrong::BadValue(Setting::Color, text));
        };
        self.options.color = color;
        Step::More
    }

    // Reads the kind and the port after `--port`.
    fn read_port(&mut self, text: String) -> Step {
        let Some(ports) = self.options.ports.with(text.as_str()) else {
            return Step::Unknown(Wrong::BadValue(Setting::Port, text));
        };
        self.options.ports = ports;
        Step::More
    }
}

// The options with the host of a text, where there is one.
fn with_host(options: Options, text: Option<String>) -> Result<Options, Wrong> {
    let Some(text) = text else {
        return Ok(options);
    };
    let Some(host) = Host::read(text.as_str()) else {
        return Err(Wrong::BadValue(Setting::Host, text));
    };
    let mut options = options;
    options.host = Some(host);
    Ok(options)
}

// The options with the name of a text, where there is one.
fn with_name_of(options: Options, text: Option<String>) -> Result<Options, Wrong> {
    let Some(text) = text else {
        return Ok(options);
    };
    let Ok(name) = Name::from_text(text.as_str().as_bytes()) else {
        return Err(Wrong::BadValue(Setting::Name, text));
    };
    let mut options = options;
    options.name = Some(name);
    Ok(options)
}

fn copy_of(text: &str) -> Result<String, Fault> {
    let mut copy = String::new();
    let Ok(()) = copy.push_str(text) else {
        return Err(Fault::Memory);
    };
    Ok(copy)
}

// Whether an argument begins with a hyphen, and is not a hyphen alone.
fn is_option(word: &str) -> bool {
    let octets = word.as_bytes();
    octets.len() > 1 && octets[0] == b'-'
}
