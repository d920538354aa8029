// Made from crates/examples/src/timed_list.rt by rust/erase.
//! Lists of what a host keeps for a time alone: entries with a key each, of which a new one takes the place of that
//! with its key, and which are dropped when their time is over.

use arrayvec::ArrayVec;

/// An entry of such a list.
pub trait Entry: Copy + Default {
    /// What tells entries apart.
    type Key;

    /// Whether it is the entry of this key.
    fn is_of(&self, key: &Self::Key) -> bool;

    /// What is left of it when this time has passed. None where its time is over.
    fn after(&self, passed: u32) -> Option<Self>;
}

/// The first entry of a key. None where there is none.
pub fn look_up<T: Entry>(entries: &[T], key: &T::Key) -> Option<T> {
    for entry in entries {
        if entry.is_of(key) {
            return Some(*entry);
        }
    }
    None
}

/// Puts an entry in the place of the first of the key, or behind all where there is none. False exactly where there is
/// none and the list is full; then it is unchanged.
pub fn renew<T: Entry, const N: usize>(
    entries: &mut ArrayVec<T, N>,
    key: &T::Key,
    entry: T,
) -> bool {
    if let Some(place) = place_of(entries.as_slice(), key) {
        entries.as_mut_slice()[place] = entry;
        return true;
    }
    if entries.is_full() {
        return false;
    }
    entries.push(entry);
    true
}

/// The entries of a key.
pub fn entries_of<T: Entry, const N: usize>(
    entries: &ArrayVec<T, N>,
    key: &T::Key,
) -> ArrayVec<T, N> {
    let mut found = ArrayVec::new();
    for entry in entries.as_slice() {
        if entry.is_of(key) {
            found.push(*entry);
        }
    }
    found
}

/// Removes the entries of a key.
pub fn remove<T: Entry, const N: usize>(entries: &mut ArrayVec<T, N>, key: &T::Key) {
    let mut kept = ArrayVec::new();
    for entry in entries.as_slice() {
        if !entry.is_of(key) {
            kept.push(*entry);
        }
    }
    *entries = kept;
}

/// Lets a time pass: each entry is what is left of it, and those whose time is over are dropped.
pub fn pass<T: Entry, const N: usize>(entries: &mut ArrayVec<T, N>, passed: u32) {
    let mut kept = ArrayVec::new();
    for entry in entries.as_slice() {
        if let Some(left) = entry.after(passed) {
            kept.push(left);
        }
    }
    *entries = kept;
}

// The place of the first entry of a key.
fn place_of<T: Entry>(entries: &[T], key: &T::Key) -> Option<usize> {
    for (place, entry) in entries.iter().enumerate() {
        if entry.is_of(key) {
            return Some(place);
        }
    }
    None
}
