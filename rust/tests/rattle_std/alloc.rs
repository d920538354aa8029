// Made from rust/rattle_std/src/alloc.rs by rust/erase.
//! Want of memory.

/// There was no memory. No call here answers it: Rust's own containers end the process in its place.
#[derive(Debug, Clone, Copy, PartialEq, Eq)]
pub struct AllocError;

impl std::fmt::Display for AllocError {
    fn fmt(&self, f: &mut std::fmt::Formatter<'_>) -> std::fmt::Result {
        f.write_str("out of memory")
    }
}

impl std::error::Error for AllocError {}

impl From<AllocError> for std::io::Error {
    fn from(_: AllocError) -> std::io::Error {
        std::io::ErrorKind::OutOfMemory.into()
    }
}
