//! A list in place.

use core::fmt;
use core::ops::Deref;

/// Up to `N` of something, without a heap: a slice, by `Deref`.
#[derive(Clone, Copy)]
pub struct List<T, const N: usize> {
    items: [T; N],
    count: usize,
}

/// A message or an end, as bytes.
pub type Packet = List<u8, { crate::PACKET_MAX }>;

impl<T, const N: usize> List<T, N> {
    /// The first of these, `count` or all.
    pub(crate) fn new(items: [T; N], count: usize) -> Self {
        Self { items, count: count.min(N) }
    }

    /// The first `count` of what these become.
    pub(crate) fn of<F: Copy>(from: &[F; N], count: usize, become_one: impl Fn(F) -> T) -> Self {
        Self::new(core::array::from_fn(|i| become_one(from[i])), count)
    }
}

impl<T, const N: usize> Deref for List<T, N> {
    type Target = [T];

    fn deref(&self) -> &[T] {
        &self.items[..self.count]
    }
}

impl<T, const N: usize> AsRef<[T]> for List<T, N> {
    fn as_ref(&self) -> &[T] {
        self
    }
}

impl<'a, T, const N: usize> IntoIterator for &'a List<T, N> {
    type Item = &'a T;
    type IntoIter = core::slice::Iter<'a, T>;

    fn into_iter(self) -> Self::IntoIter {
        self.iter()
    }
}

impl<T, const N: usize> IntoIterator for List<T, N> {
    type Item = T;
    type IntoIter = core::iter::Take<core::array::IntoIter<T, N>>;

    fn into_iter(self) -> Self::IntoIter {
        let count = self.count;
        self.items.into_iter().take(count)
    }
}

impl<T: PartialEq, const N: usize> PartialEq for List<T, N> {
    fn eq(&self, other: &Self) -> bool {
        **self == **other
    }
}

impl<T: Eq, const N: usize> Eq for List<T, N> {}

impl<T: fmt::Debug, const N: usize> fmt::Debug for List<T, N> {
    fn fmt(&self, to: &mut fmt::Formatter<'_>) -> fmt::Result {
        to.debug_list().entries(self.iter()).finish()
    }
}
