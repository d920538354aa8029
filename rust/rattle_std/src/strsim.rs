//! How far apart two words are.

use crate::alloc::AllocError;

/// The least number of characters that are put in, left out or replaced on the way from one word to the other.
pub fn levenshtein(word: &str, other: &str) -> Result<usize, AllocError> {
    Ok(::strsim::levenshtein(word, other))
}
