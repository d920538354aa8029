// Made from crates/packet_stats/src/sum.rt by rust/erase.
//! The sums of subjects: subjects that are equal have the same sum, and most others have another.

use crate::row::Row;
use crate::subject::Subject;

// An odd number whose bits are spread: 2 ^ 32 divided by the golden ratio.
const MULTIPLIER: u32 = 2_654_435_761;

impl Subject {
    // The sum of this subject.
    pub(crate) fn sum(&self) -> u32 {
        let mut sum = 0;
        for octet in self.place().as_slice() {
            sum = mix(sum, *octet);
        }
        sum
    }
}

// One octet more mixed into a sum.
fn mix(sum: u32, octet: u8) -> u32 {
    sum.wrapping_mul(MULTIPLIER).wrapping_add(octet as u32)
}

// Sums up each row again, where they stand in another order.
pub(crate) fn sum_again(rows: &[Row], sums: &mut [u32]) {
    for place in 0..rows.len() {
        sums[place] = rows[place].subject.sum();
    }
}
