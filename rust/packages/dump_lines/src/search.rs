// Made from crates/dump_lines/src/search.rt by rust/erase.
//! The place of an octet among others: a word's or a line's end, or the end of a run of spaces.

use memchr::{memchr, memchr2};

// The number of spaces that are looked at in one step.
const STEP: usize = 16;

/// The number of leading spaces. The first ones are looked at one by one, since most words have one before them.
// Inlined, since it is called for each word of a line.
#[inline(always)]
pub fn spaces_len(octets: &[u8]) -> usize {
    for (i, octet) in octets.iter().enumerate() {
        if *octet != b' ' {
            return i;
        }
        if i == STEP {
            return many_spaces_len(octets);
        }
    }
    octets.len()
}

// The number of leading spaces, by whole steps as far as these are spaces.
#[inline(never)]
fn many_spaces_len(octets: &[u8]) -> usize {
    let mut len = steps_of_spaces(octets);
    while len < octets.len() && octets[len] == b' ' {
        len += 1;
    }
    len
}

// The number of octets in the leading steps that are spaces alone.
fn steps_of_spaces(octets: &[u8]) -> usize {
    let steps = octets.len() / STEP;
    for step in 0..steps {
        let start = step * STEP;
        if has_other(&octets[start..start + STEP]) {
            return start;
        }
    }
    steps * STEP
}

// Whether any of these octets is not a space. There is no branch between the octets, so that all are compared at once.
#[inline(always)]
fn has_other(octets: &[u8]) -> bool {
    let mut found = false;
    for octet in octets {
        found |= *octet != b' ';
    }
    found
}

/// The number of octets before the first one of this value.
pub fn len_before(octets: &[u8], wanted: u8) -> usize {
    memchr(wanted, octets).unwrap_or(octets.len())
}

/// The number of octets before the first one of these two values.
pub fn len_before_either(octets: &[u8], first: u8, second: u8) -> usize {
    memchr2(first, second, octets).unwrap_or(octets.len())
}
