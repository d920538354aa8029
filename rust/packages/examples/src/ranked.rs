// Made from crates/examples/src/ranked.rt by rust/erase.
//! The best of several for a destination, by their ranks.

use control_wire::Ipv6Address;

/// What has a rank for each destination.
pub trait Ranked: Copy {
    /// The rank for a destination: the higher, the better. 0 where it does not serve.
    fn rank(&self, destination: &Ipv6Address) -> u32;
}

/// The first of those with the highest rank for a destination. None where none serves.
pub fn best<T: Ranked>(entries: &[T], destination: &Ipv6Address) -> Option<T> {
    let mut best = None;
    for entry in entries {
        best = better(best, entry, destination);
    }
    best
}

// The one with the higher rank, or else the first.
fn better<T: Ranked>(first: Option<T>, second: &T, destination: &Ipv6Address) -> Option<T> {
    let rank = match &first {
        Some(first) => first.rank(destination),
        None => 0,
    };
    if rank < second.rank(destination) {
        Some(*second)
    } else {
        first
    }
}
