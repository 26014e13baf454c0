//! Stand-in for the crate `smallvec`: what `clock.rs` uses of it. Like the real one it keeps short
//! lists in place, so that a measurement of the source does not count allocations that Shuttle's own
//! clocks do not make. Only lists of `u32` are used.

use std::fmt;
use std::ops::{Deref, DerefMut};

/// The array type that names the element type and the room kept in place.
pub trait Array {
    type Item: Copy;
    const ZEROS: Self;
    fn items(&self) -> &[Self::Item];
    fn items_mut(&mut self) -> &mut [Self::Item];
}

impl<const N: usize> Array for [u32; N] {
    type Item = u32;
    const ZEROS: Self = [0; N];

    fn items(&self) -> &[u32] {
        self
    }

    fn items_mut(&mut self) -> &mut [u32] {
        self
    }
}

pub struct SmallVec<A: Array> {
    /// The elements, while they fit.
    inline: A,
    /// How many stand in place; nothing once they are in `spilled`.
    len: usize,
    /// The elements, once they do not fit in place.
    spilled: Vec<A::Item>,
}

impl<A: Array> SmallVec<A> {
    pub const fn new_const() -> Self {
        Self {
            inline: A::ZEROS,
            len: 0,
            spilled: Vec::new(),
        }
    }

    pub fn push(&mut self, item: A::Item) {
        self.extend_from_slice(&[item]);
    }

    pub fn extend_from_slice(&mut self, items: &[A::Item]) {
        let len = self.len + items.len();
        if self.spilled.is_empty() && len <= self.inline.items().len() {
            self.inline.items_mut()[self.len..len].copy_from_slice(items);
            self.len = len;
        } else {
            self.spill(items);
        }
    }

    #[cold]
    fn spill(&mut self, items: &[A::Item]) {
        if self.spilled.is_empty() {
            self.spilled = self.inline.items()[..self.len].to_vec();
            self.len = 0;
        }
        self.spilled.extend_from_slice(items);
    }
}

impl<A: Array> From<&[A::Item]> for SmallVec<A> {
    fn from(items: &[A::Item]) -> Self {
        let mut all = Self::new_const();
        all.extend_from_slice(items);
        all
    }
}

impl<A: Array> Deref for SmallVec<A> {
    type Target = [A::Item];

    fn deref(&self) -> &Self::Target {
        match self.spilled.is_empty() {
            true => &self.inline.items()[..self.len],
            false => &self.spilled,
        }
    }
}

impl<A: Array> DerefMut for SmallVec<A> {
    fn deref_mut(&mut self) -> &mut Self::Target {
        match self.spilled.is_empty() {
            true => &mut self.inline.items_mut()[..self.len],
            false => &mut self.spilled,
        }
    }
}

impl<A: Array + Copy> Clone for SmallVec<A> {
    fn clone(&self) -> Self {
        Self {
            inline: self.inline,
            len: self.len,
            spilled: match self.spilled.is_empty() {
                true => Vec::new(),
                false => self.spilled.clone(),
            },
        }
    }
}

impl<A: Array> fmt::Debug for SmallVec<A>
where
    A::Item: fmt::Debug,
{
    fn fmt(&self, f: &mut fmt::Formatter<'_>) -> fmt::Result {
        (**self).fmt(f)
    }
}

impl<A: Array> PartialEq for SmallVec<A>
where
    A::Item: PartialEq,
{
    fn eq(&self, other: &Self) -> bool {
        **self == **other
    }
}

impl<A: Array> Eq for SmallVec<A> where A::Item: Eq {}

/// `smallvec![item; count]`, the one form that `clock.rs` uses.
#[macro_export]
macro_rules! smallvec {
    ($item:expr; $count:expr) => {
        $crate::SmallVec::from(&::std::vec![$item; $count][..])
    };
}
