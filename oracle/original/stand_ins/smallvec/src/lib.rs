//! Stand-in for smallvec: a vector on the heap. Where the entries lie does not change them.

use std::fmt;
use std::ops::Deref;

/// What a small vector has room for before it would move to the heap.
pub trait Array {
    /// An entry.
    type Item;
}

impl<T, const N: usize> Array for [T; N] {
    type Item = T;
}

/// A vector.
pub struct SmallVec<A: Array>(Vec<A::Item>);

impl<A: Array> Clone for SmallVec<A>
where
    A::Item: Clone,
{
    fn clone(&self) -> Self {
        SmallVec(self.0.clone())
    }
}

impl<A: Array> fmt::Debug for SmallVec<A>
where
    A::Item: fmt::Debug,
{
    fn fmt(&self, f: &mut fmt::Formatter<'_>) -> fmt::Result {
        self.0.fmt(f)
    }
}

impl<A: Array> FromIterator<A::Item> for SmallVec<A> {
    fn from_iter<I: IntoIterator<Item = A::Item>>(entries: I) -> Self {
        SmallVec(entries.into_iter().collect())
    }
}

impl<A: Array> Deref for SmallVec<A> {
    type Target = [A::Item];

    fn deref(&self) -> &[A::Item] {
        &self.0
    }
}
