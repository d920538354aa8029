// Made from crates/packet_pairs/src/elapsed.rt by rust/erase.
//! The time from one packet to another.

// The nanoseconds from one time to another, where both are known and the other is not before the one.
pub(crate) fn nanoseconds_between(before: Option<u64>, after: Option<u64>) -> Option<u64> {
    match (before, after) {
        (Some(before), Some(after)) if before <= after => Some(after - before),
        _ => None,
    }
}
