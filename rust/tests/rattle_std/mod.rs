// Made from rust/rattle_std/src/lib.rs by rust/erase.
//! What erased tests and programs take of Rattle's std, over Rust's.
//!
//! In Rattle, what takes memory is handed an allocator and answers a `Result`. Here nothing is handed on, and these
//! results are always `Ok`.

pub use crate::vec;
pub mod alloc;
pub mod test;
mod text;
mod vec;

pub use vec::filled;

/// The names that Rattle's prelude has otherwise than Rust's.
pub mod prelude {
    pub use crate::rattle_std::text::{JoinIn, String, ToStringIn};
    pub use crate::rattle_std::vec::{TryClone, Vec};
}
