// Made from crates/dump_captures/src/settings.rt by rust/erase.
//! The options that a value follows, and their values.

use crate::options::{Color, TimeForm};

/// An option that a value follows.
#[derive(Debug, PartialEq, Eq, Clone, Copy)]
pub enum Setting {
    /// `--only`: the kinds that are printed.
    Only,
    /// `-c`: how many packets are printed.
    Most,
    /// `--host`: the host whose packets are printed.
    Host,
    /// `--name`: the name that messages have.
    Name,
    /// `--time`: how times are printed.
    Time,
    /// `--port`: another port of a service.
    Port,
    /// `--color`: where lines are colored.
    Color,
}

impl Setting {
    /// The option.
    pub fn name(self) -> &'static str {
        match self {
            Setting::Only => "--only",
            Setting::Most => "-c",
            Setting::Host => "--host",
            Setting::Name => "--name",
            Setting::Time => "--time",
            Setting::Port => "--port",
            Setting::Color => "--color",
        }
    }

    /// What its value is.
    pub fn value(self) -> &'static str {
        match self {
            Setting::Only => "kinds with commas between them",
            Setting::Most => "a number of packets from 1 on",
            Setting::Host => "an IPv4 or IPv6 address, or ADDRESS/BITS",
            Setting::Name => "a DNS name",
            Setting::Time => "utc, clock, relative, delta or epoch",
            Setting::Port => "KIND=PORT of dns, mdns, llmnr, nbns or dhcp, as dns=5300",
            Setting::Color => "auto, always or never",
        }
    }
}

/// The option of this name that a value follows.
pub fn setting_of(option: &str) -> Option<Setting> {
    match option {
        "--only" => Some(Setting::Only),
        "-c" => Some(Setting::Most),
        "--host" => Some(Setting::Host),
        "--name" => Some(Setting::Name),
        "--time" => Some(Setting::Time),
        "--port" => Some(Setting::Port),
        "--color" => Some(Setting::Color),
        _ => None,
    }
}

/// The text before the first such character, and that behind it where there is one. Requires one of ASCII.
pub fn split(text: &str, separator: char) -> (&str, Option<&str>) {
    match text.split_once(separator) {
        Some((before, behind)) => (before, Some(behind)),
        None => (text, None),
    }
}

/// A number in decimal digits.
pub fn number_in(text: &str) -> Option<u64> {
    if !are_digits(text.as_bytes()) {
        return None;
    }
    text.parse().ok()
}

// Whether all of these are digits.
fn are_digits(octets: &[u8]) -> bool {
    for octet in octets {
        if !octet.is_ascii_digit() {
            return false;
        }
    }
    true
}

/// The same from 1 on.
pub fn count_in(text: &str) -> Option<u64> {
    let number = number_in(text)?;
    if number == 0 {
        return None;
    }
    Some(number)
}

/// The form of times of this name.
pub fn time_form_in(text: &str) -> Option<TimeForm> {
    match text {
        "utc" => Some(TimeForm::Utc),
        "clock" => Some(TimeForm::Clock),
        "relative" => Some(TimeForm::Relative),
        "delta" => Some(TimeForm::Delta),
        "epoch" => Some(TimeForm::Epoch),
        _ => None,
    }
}

/// Where lines are colored, by this name.
pub fn color_in(text: &str) -> Option<Color> {
    match text {
        "auto" => Some(Color::Auto),
        "always" => Some(Color::Always),
        "never" => Some(Color::Never),
        _ => None,
    }
}
