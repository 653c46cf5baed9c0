//! A list by value with room for `N`; its length never passes its room.

use std::fmt;
use std::ops::{Deref, DerefMut};

#[derive(Clone, Copy)]
pub struct List<T, const N: usize> {
    items: [T; N],
    length: usize,
}

impl<T: Copy + Default, const N: usize> List<T, N> {
    pub fn new() -> Self {
        Self { items: [T::default(); N], length: 0 }
    }

    /// The list of these values, or `None` where there is no room for them.
    pub fn of(values: &[T]) -> Option<Self> {
        let mut list = Self::new();
        values.iter().all(|&value| list.push(value)).then_some(list)
    }

    /// Joins a value at the end; `false` where the list is full.
    pub fn push(&mut self, value: T) -> bool {
        let slot = self.items.get_mut(self.length);
        let room = slot.is_some();
        if let Some(slot) = slot {
            *slot = value;
            self.length += 1;
        }
        room
    }

    /// Takes the last value away.
    pub fn pop(&mut self) -> Option<T> {
        self.length = self.length.checked_sub(1)?;
        Some(self.items[self.length])
    }
}

impl<T, const N: usize> Deref for List<T, N> {
    type Target = [T];

    fn deref(&self) -> &[T] {
        &self.items[..self.length]
    }
}

impl<T, const N: usize> DerefMut for List<T, N> {
    fn deref_mut(&mut self) -> &mut [T] {
        &mut self.items[..self.length]
    }
}

impl<T: Copy + Default, const N: usize> Default for List<T, N> {
    fn default() -> Self {
        Self::new()
    }
}

/// The room past the length is of no account.
impl<T: PartialEq, const N: usize> PartialEq for List<T, N> {
    fn eq(&self, other: &Self) -> bool {
        self[..] == other[..]
    }
}

impl<T: Eq, const N: usize> Eq for List<T, N> {}

impl<T: fmt::Debug, const N: usize> fmt::Debug for List<T, N> {
    fn fmt(&self, out: &mut fmt::Formatter<'_>) -> fmt::Result {
        self[..].fmt(out)
    }
}
