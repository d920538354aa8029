// Made from rust/rattle_std/src/test.rs by rust/erase.
//! Tests that may fail by `?`.

/// Why a test failed.
pub type Fail = Box<dyn std::error::Error>;
