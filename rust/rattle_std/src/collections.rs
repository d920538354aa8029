//! Queues, whose growth answers a `Result`.

use crate::alloc::AllocError;
use std::ops::{Deref, DerefMut};

/// A queue with two ends.
#[derive(Debug, Clone, PartialEq, Eq)]
pub struct VecDeque<T>(std::collections::VecDeque<T>);

impl<T> VecDeque<T> {
    /// No items.
    pub fn new() -> VecDeque<T> {
        VecDeque(std::collections::VecDeque::new())
    }

    /// Puts an item behind the others.
    pub fn push_back(&mut self, value: T) -> Result<(), AllocError> {
        self.0.push_back(value);
        Ok(())
    }

    /// Puts an item before the others.
    pub fn push_front(&mut self, value: T) -> Result<(), AllocError> {
        self.0.push_front(value);
        Ok(())
    }
}

impl<T> Default for VecDeque<T> {
    fn default() -> VecDeque<T> {
        VecDeque::new()
    }
}

impl<T> Deref for VecDeque<T> {
    type Target = std::collections::VecDeque<T>;

    fn deref(&self) -> &std::collections::VecDeque<T> {
        &self.0
    }
}

impl<T> DerefMut for VecDeque<T> {
    fn deref_mut(&mut self) -> &mut std::collections::VecDeque<T> {
        &mut self.0
    }
}
