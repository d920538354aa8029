// Made from crates/reassembly/src/lib.rt by rust/erase.
//! Datagrams of IPv4 and IPv6 put together again from their fragments, in bounded memory.

mod answer;
mod fragment;
mod key;
mod options;
mod partial;
mod piece;
mod reassembly;

pub use answer::{Answer, Fault, Refusal, Whole};
pub use fragment::Fragment;
pub use key::Key;
pub use partial::{MOST_PIECES, Partial};
pub use piece::{MOST_LEN, MOST_OPTIONS_LEN, Piece};
pub use reassembly::{MOST_DATAGRAMS, Reassembly};
