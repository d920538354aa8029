// Made from crates/wirebase/src/config.rt by rust/erase.
//! The sizes that the library chooses.

/// The most options that a hop-by-hop header keeps.
pub const IPV6_HBH_MAX_OPTIONS: usize = 8;
