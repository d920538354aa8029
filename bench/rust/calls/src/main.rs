//! Each public call that a user waits for, by itself, so that its instructions can be counted: `bench/count` runs this
//! program under callgrind. Each case is a call over some inputs that differ, and prints its name and the digest of all
//! answers. Words name the groups of cases that are run.

mod captures;
mod dhcp;
mod dns;
#[cfg(feature = "later")]
mod extensions;
mod frames;
#[cfg(feature = "later")]
mod groups;
#[cfg(feature = "later")]
mod headers;
mod icmpv4;
mod icmpv6;
mod measure;
mod messages;
mod names;
#[cfg(feature = "later")]
mod neighbors;
mod options;
mod quotes;
mod random;
mod texts;

/// A group of cases, and what runs it.
type Group = (&'static str, fn());

const GROUPS: &[Group] = &[
    ("icmpv4", icmpv4::cases),
    ("icmpv6", icmpv6::cases),
    ("quotes", quotes::cases),
    ("options", options::cases),
    ("dhcp", dhcp::cases),
    ("dns", dns::cases),
    ("names", names::cases),
    ("frames", frames::cases),
    ("captures", captures::cases),
    ("texts", texts::cases),
    #[cfg(feature = "later")]
    ("groups", groups::cases),
    #[cfg(feature = "later")]
    ("neighbors", neighbors::cases),
    #[cfg(feature = "later")]
    ("extensions", extensions::cases),
    #[cfg(feature = "later")]
    ("headers", headers::cases),
];

fn main() {
    let words: Vec<String> = std::env::args().skip(1).collect();
    for (name, cases) in GROUPS {
        if words.is_empty() || words.iter().any(|word| word == name) {
            cases();
        }
    }
}
