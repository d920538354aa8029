//! Vectors, whose growth answers a `Result`.

use crate::alloc::AllocError;
use std::ops::{Deref, DerefMut};

/// A vector.
#[derive(Debug, Clone, PartialEq, Eq)]
pub struct Vec<T>(pub(crate) std::vec::Vec<T>);

impl<T> Vec<T> {
    /// No items.
    pub fn new() -> Vec<T> {
        Vec(std::vec::Vec::new())
    }

    /// Puts an item behind the others.
    pub fn push(&mut self, value: T) -> Result<(), AllocError> {
        self.0.push(value);
        Ok(())
    }

    /// Puts an item at a place, before those from there on.
    pub fn insert(&mut self, place: usize, value: T) -> Result<(), AllocError> {
        self.0.insert(place, value);
        Ok(())
    }
}

impl<T> Default for Vec<T> {
    fn default() -> Vec<T> {
        Vec::new()
    }
}

impl<T: Clone> Vec<T> {
    /// Puts items behind the others.
    pub fn extend_from_slice(&mut self, values: &[T]) -> Result<(), AllocError> {
        self.0.extend_from_slice(values);
        Ok(())
    }
}

impl<T> Deref for Vec<T> {
    type Target = std::vec::Vec<T>;

    fn deref(&self) -> &std::vec::Vec<T> {
        &self.0
    }
}

impl<T> DerefMut for Vec<T> {
    fn deref_mut(&mut self) -> &mut std::vec::Vec<T> {
        &mut self.0
    }
}

impl std::io::Write for Vec<u8> {
    #[inline]
    fn write(&mut self, bytes: &[u8]) -> std::io::Result<usize> {
        self.0.write(bytes)
    }

    #[inline]
    fn write_all(&mut self, bytes: &[u8]) -> std::io::Result<()> {
        self.0.write_all(bytes)
    }

    fn flush(&mut self) -> std::io::Result<()> {
        Ok(())
    }
}

/// So many times the same item, as `vec!` answers it.
pub fn filled<T: Clone>(value: T, count: usize) -> Result<Vec<T>, AllocError> {
    Ok(Vec(std::vec![value; count]))
}

/// So many times the same item.
#[macro_export]
macro_rules! vec {
    ($value:expr; $count:expr) => {
        $crate::filled($value, $count)
    };
}

/// `clone` of Rattle.
pub trait TryClone: Clone {
    /// The clone.
    fn try_clone(&self) -> Result<Self, AllocError> {
        Ok(self.clone())
    }
}

impl<T: Clone> TryClone for T {}
