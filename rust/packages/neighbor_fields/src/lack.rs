// Made from crates/neighbor_fields/src/lack.rt by rust/erase.
//! Of what a message has less than it takes or counts.

use std::fmt;

/// Of what a message that ends early has less than it takes or counts.
#[derive(Debug, PartialEq, Eq, Clone, Copy)]
pub enum Lack {
    /// The bytes of its fields.
    Fields,
    /// Whole records of a report.
    Records,
    /// Whole sources of a query.
    Sources,
}

impl Lack {
    /// That it is so, in words.
    pub fn phrase(self) -> &'static str {
        match self {
            Lack::Fields => "fewer bytes than the fields take",
            Lack::Records => "fewer records than the report counts",
            Lack::Sources => "fewer sources than the query counts",
        }
    }
}

/// That it is so, in words.
impl fmt::Display for Lack {
    fn fmt(&self, f: &mut fmt::Formatter<'_>) -> fmt::Result {
        f.write_str(self.phrase())
    }
}
