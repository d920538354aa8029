// Made from crates/dump_captures/src/nearest.rt by rust/erase.
//! The known word that is nearest to one that is not known.

use crate::Fault;
use rattle_std::strsim::levenshtein;

/// The first of the known words that are nearest to this one, where it is near enough to be what was meant.
pub fn nearest(word: &str, known: &[&'static str]) -> Result<Option<&'static str>, Fault> {
    let mut bound = most_changes(word.len()) + 1;
    let mut found = None;
    for other in known {
        let Ok(distance) = levenshtein(word, other) else {
            return Err(Fault::Memory);
        };
        if distance < bound {
            bound = distance;
            found = Some(*other);
        }
    }
    Ok(found)
}

// How many characters may be others in what was meant by a word of this length.
fn most_changes(len: usize) -> usize {
    (len / 2).min((len / 3).max(2))
}
