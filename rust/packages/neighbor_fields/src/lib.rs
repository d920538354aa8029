// Made from crates/neighbor_fields/src/lib.rt by rust/erase.
//! The fields of IPv6 hop-by-hop options, of neighbor discovery, and of multicast listeners and groups, in lines or in
//! JSON.

pub mod hop_by_hop;
pub mod igmp;
pub mod lack;
mod messages;
pub mod mld;
pub mod ndisc;
pub mod records;

pub use lack::Lack;
