// Made from crates/packet_stats/src/times.rt by rust/erase.
//! Times in ascending order.

// The place of a time among others that ascend.
pub(crate) fn place_in(times: &[u64], time: u64) -> usize {
    for (place, kept) in times.iter().enumerate() {
        if time < *kept {
            return place;
        }
    }
    times.len()
}
