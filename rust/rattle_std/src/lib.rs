//! What erased tests and programs take of Rattle's std, over Rust's.
//!
//! In Rattle, what takes memory is handed an allocator and answers a `Result`. Here nothing is handed on, and these
//! results are always `Ok`.
#![forbid(unsafe_code)]

pub mod alloc;
pub mod collections;
pub mod env;
pub mod fs;
pub mod hex;
pub mod io;
pub mod strsim;
pub mod test;
mod text;
mod vec;

pub use std::fmt;
pub use vec::filled;

/// The names that Rattle's prelude has otherwise than Rust's.
pub mod prelude {
    pub use crate::text::{JoinIn, String, ToStringIn};
    pub use crate::vec::{TryClone, Vec};
}
