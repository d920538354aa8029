// Made from crates/packet_pairs/src/search.rt by rust/erase.
//! The search for a question by its key.

use crate::key::Key;
use crate::pairs::Asked;
use rattle_std::collections::VecDeque;

// The place of the first question with this key.
pub(crate) fn find(questions: &VecDeque<Asked>, key: &Key) -> Option<usize> {
    for place in 0..questions.len() {
        if questions[place].key.is(key) {
            return Some(place);
        }
    }
    None
}

// The place of the first sum that is this one. Most often there is none, which `contains` says several times faster
// than `position`.
pub(crate) fn place_of(sums: &VecDeque<u32>, sum: u32) -> Option<usize> {
    if sums.contains(&sum) {
        return sums.iter().position(|other| *other == sum);
    }
    None
}
