// Made from crates/dhcp_options/src/lib.rt by rust/erase.
//! All options of a DHCPv4 packet: those of the options field, and those of the fields `file` and `sname` where option
//! 52 says that these hold options (RFC 2132 section 9.3). An option that stands in several parts is joined from them
//! (RFC 3396).
//!
//! ```
//! use control_wire::dhcp_options::Parts;
//!
//! // The name of a file that is split, and a host's name in `file`.
//! let mut octets = [0; 267];
//! octets[108..115].copy_from_slice(b"\x0c\x04host\xff");
//! octets[240..].copy_from_slice(b"\x34\x01\x01\x43\x07/diskle\x43\x06ss/foo\xff\0\0\0\0\0\0");
//!
//! let mut buffer = [0; 267];
//! let mut lines = Vec::new();
//! for part in Parts::of(&octets).flatten().filter(|part| part.is_first) {
//!     let option = Parts::of(&octets).option(part.kind, &mut buffer)?;
//!     lines.push(format!("{}: {option}", part.area));
//! }
//! assert_eq!(
//!     lines,
//!     [
//!         "options: option-overload=1",
//!         "options: bootfile-name=\"/diskless/foo\"",
//!         "file: host-name=\"host\"",
//!     ],
//! );
//! # Ok::<(), control_wire::Error>(())
//! ```

mod areas;
mod front;
pub mod joined;
pub mod overload;
pub mod parts;

pub use joined::KindParts;
pub use overload::Overload;
pub use parts::{Area, Part, Parts, Refusal};
