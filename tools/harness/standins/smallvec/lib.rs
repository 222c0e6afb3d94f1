//! Stands in for the crate `smallvec`, which was not supplied: the same names, with the items in
//! place as there. Only what the published sources call is here; they never hold more items than the
//! array has room for, so nothing moves to the heap.

use std::mem::MaybeUninit;
use std::ops::{Deref, DerefMut};
use std::slice;

/// The array type that names the element type of a `SmallVec` and its room.
///
/// # Safety
/// The type is an array of `ROOM` elements of the type `Item`.
pub unsafe trait Array {
    type Item;
    const ROOM: usize;
}

// SAFETY: the type is that array.
unsafe impl<T, const N: usize> Array for [T; N] {
    type Item = T;
    const ROOM: usize = N;
}

/// The first `count` elements of the array are there.
pub struct SmallVec<A: Array> {
    items: MaybeUninit<A>,
    count: usize,
}

impl<A: Array> SmallVec<A> {
    pub fn new() -> Self {
        Self {
            items: MaybeUninit::uninit(),
            count: 0,
        }
    }

    pub fn push(&mut self, item: A::Item) {
        assert!(self.count < A::ROOM, "more items than there is room for");
        // SAFETY: the place lies in the array, and no element is there yet.
        unsafe { self.start_mut().add(self.count).write(item) };
        self.count += 1;
    }

    fn start(&self) -> *const A::Item {
        self.items.as_ptr().cast()
    }

    fn start_mut(&mut self) -> *mut A::Item {
        self.items.as_mut_ptr().cast()
    }
}

impl<A: Array> Deref for SmallVec<A> {
    type Target = [A::Item];

    fn deref(&self) -> &[A::Item] {
        // SAFETY: the first `count` elements are there.
        unsafe { slice::from_raw_parts(self.start(), self.count) }
    }
}

impl<A: Array> DerefMut for SmallVec<A> {
    fn deref_mut(&mut self) -> &mut [A::Item] {
        // SAFETY: the first `count` elements are there.
        unsafe { slice::from_raw_parts_mut(self.start_mut(), self.count) }
    }
}

impl<A: Array> Drop for SmallVec<A> {
    fn drop(&mut self) {
        // SAFETY: the first `count` elements are there, and nothing looks at them after this.
        unsafe { std::ptr::drop_in_place(&mut **self) };
    }
}

impl<A: Array> Default for SmallVec<A> {
    fn default() -> Self {
        Self::new()
    }
}

impl<A: Array> Clone for SmallVec<A>
where
    A::Item: Clone,
{
    fn clone(&self) -> Self {
        let mut copy = Self::new();
        for item in self.iter() {
            copy.push(item.clone());
        }
        copy
    }
}

impl<A: Array> PartialEq for SmallVec<A>
where
    A::Item: PartialEq,
{
    fn eq(&self, other: &Self) -> bool {
        **self == **other
    }
}

impl<A: Array> Eq for SmallVec<A> where A::Item: Eq {}

impl<A: Array> std::hash::Hash for SmallVec<A>
where
    A::Item: std::hash::Hash,
{
    fn hash<H: std::hash::Hasher>(&self, state: &mut H) {
        (**self).hash(state);
    }
}

impl<A: Array> std::fmt::Debug for SmallVec<A>
where
    A::Item: std::fmt::Debug,
{
    fn fmt(&self, f: &mut std::fmt::Formatter<'_>) -> std::fmt::Result {
        (**self).fmt(f)
    }
}

impl<'a, A: Array> IntoIterator for &'a SmallVec<A> {
    type Item = &'a A::Item;
    type IntoIter = slice::Iter<'a, A::Item>;

    fn into_iter(self) -> Self::IntoIter {
        self.iter()
    }
}

impl<'a, A: Array> IntoIterator for &'a mut SmallVec<A> {
    type Item = &'a mut A::Item;
    type IntoIter = slice::IterMut<'a, A::Item>;

    fn into_iter(self) -> Self::IntoIter {
        self.iter_mut()
    }
}
