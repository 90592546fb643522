//! Arenas: lists of values that are reached by ids.
//!
//! The original takes `Arena` and `Id` from the crate `id_arena`. This crate has no dependency, so it has types of its own with
//! the methods that users of such values call. Types of `id_arena` itself do not fit.
use std::cmp::Ordering;
use std::fmt;
use std::hash::{Hash, Hasher};
use std::iter::{Enumerate, FusedIterator};
use std::marker::PhantomData;
use std::ops::{Index, IndexMut};
use std::slice;
use std::sync::atomic::{AtomicU32, Ordering as Memory};
use std::vec;

/// A list of values that only grows. Each value has an [`Id`].
///
/// An arena has a number that its ids carry, so that an id of another arena is noticed. A clone has the number of the original,
/// and takes its ids. After 2^32 arenas the numbers begin again.
pub struct Arena<T> {
    number: u32,
    values: Vec<T>,
}

/// Where a value is in its [`Arena`].
pub struct Id<T> {
    index: usize,
    arena: u32,
    of: PhantomData<fn() -> T>,
}

impl<T> Arena<T> {
    /// An arena without values.
    pub fn new() -> Self {
        Self::with_capacity(0)
    }

    /// An arena without values that takes `capacity` of them before it allocates again.
    pub fn with_capacity(capacity: usize) -> Self {
        static NEXT: AtomicU32 = AtomicU32::new(0);
        Arena {
            number: NEXT.fetch_add(1, Memory::Relaxed),
            values: Vec::with_capacity(capacity),
        }
    }

    /// Appends the value, and returns its id.
    pub fn alloc(&mut self, value: T) -> Id<T> {
        let id = self.next_id();
        self.values.push(value);
        id
    }

    /// Appends the value that the function makes of its id, and returns the id.
    pub fn alloc_with_id(&mut self, value: impl FnOnce(Id<T>) -> T) -> Id<T> {
        self.alloc(value(self.next_id()))
    }

    /// The id that the next value gets.
    pub fn next_id(&self) -> Id<T> {
        self.id(self.values.len())
    }

    /// The value, unless the id is of another arena or past the end.
    pub fn get(&self, id: Id<T>) -> Option<&T> {
        self.values.get(self.own(id)?)
    }

    /// The value, to be changed, unless the id is of another arena or past the end.
    pub fn get_mut(&mut self, id: Id<T>) -> Option<&mut T> {
        let index = self.own(id)?;
        self.values.get_mut(index)
    }

    /// The number of values.
    pub fn len(&self) -> usize {
        self.values.len()
    }

    /// Whether there is no value.
    pub fn is_empty(&self) -> bool {
        self.values.is_empty()
    }

    /// The values with their ids, in the order in which they were appended.
    pub fn iter(&self) -> Iter<'_, T> {
        WithIds::new(self.number, self.values.iter())
    }

    /// The values with their ids, to be changed, in the order in which they were appended.
    pub fn iter_mut(&mut self) -> IterMut<'_, T> {
        WithIds::new(self.number, self.values.iter_mut())
    }

    // The id of an index, be it past the end.
    pub(crate) fn id(&self, index: usize) -> Id<T> {
        Id::new(index, self.number)
    }

    // The value at an index, with its id.
    pub(crate) fn at(&self, index: usize) -> Option<(Id<T>, &T)> {
        Some((self.id(index), self.values.get(index)?))
    }

    // The index of an id, be it past the end, if the id is of this arena.
    pub(crate) fn own(&self, id: Id<T>) -> Option<usize> {
        (id.arena == self.number).then_some(id.index)
    }

    // The values, which may be put in another order.
    pub(crate) fn values_mut(&mut self) -> &mut Vec<T> {
        &mut self.values
    }
}

impl<T> Default for Arena<T> {
    fn default() -> Self {
        Self::new()
    }
}

impl<T: Clone> Clone for Arena<T> {
    fn clone(&self) -> Self {
        Arena {
            number: self.number,
            values: self.values.clone(),
        }
    }
}

impl<T: fmt::Debug> fmt::Debug for Arena<T> {
    fn fmt(&self, f: &mut fmt::Formatter<'_>) -> fmt::Result {
        f.write_str("Arena ")?;
        f.debug_list().entries(&self.values).finish()
    }
}

/// # Panics
///
/// Indexing panics if the id is of another arena or past the end.
impl<T> Index<Id<T>> for Arena<T> {
    type Output = T;

    fn index(&self, id: Id<T>) -> &T {
        self.get(id).expect("an id of this arena")
    }
}

impl<T> IndexMut<Id<T>> for Arena<T> {
    fn index_mut(&mut self, id: Id<T>) -> &mut T {
        self.get_mut(id).expect("an id of this arena")
    }
}

impl<T> FromIterator<T> for Arena<T> {
    fn from_iter<I: IntoIterator<Item = T>>(values: I) -> Self {
        let mut arena = Arena::new();
        arena.values.extend(values);
        arena
    }
}

impl<T> IntoIterator for Arena<T> {
    type Item = (Id<T>, T);
    type IntoIter = IntoIter<T>;

    fn into_iter(self) -> IntoIter<T> {
        WithIds::new(self.number, self.values.into_iter())
    }
}

impl<'a, T> IntoIterator for &'a Arena<T> {
    type Item = (Id<T>, &'a T);
    type IntoIter = Iter<'a, T>;

    fn into_iter(self) -> Iter<'a, T> {
        self.iter()
    }
}

impl<'a, T> IntoIterator for &'a mut Arena<T> {
    type Item = (Id<T>, &'a mut T);
    type IntoIter = IterMut<'a, T>;

    fn into_iter(self) -> IterMut<'a, T> {
        self.iter_mut()
    }
}

/// The iterator of [`Arena::iter`].
pub type Iter<'a, T> = WithIds<T, slice::Iter<'a, T>>;

/// The iterator of [`Arena::iter_mut`].
pub type IterMut<'a, T> = WithIds<T, slice::IterMut<'a, T>>;

/// The iterator of an arena by value.
pub type IntoIter<T> = WithIds<T, vec::IntoIter<T>>;

/// The values of an arena, each with its id.
#[derive(Clone, Debug)]
pub struct WithIds<T, I> {
    arena: u32,
    values: Enumerate<I>,
    of: PhantomData<fn() -> T>,
}

impl<T, I: Iterator> WithIds<T, I> {
    fn new(arena: u32, values: I) -> Self {
        WithIds {
            arena,
            values: values.enumerate(),
            of: PhantomData,
        }
    }
}

impl<T, I: Iterator> Iterator for WithIds<T, I> {
    type Item = (Id<T>, I::Item);

    fn next(&mut self) -> Option<Self::Item> {
        let (index, value) = self.values.next()?;
        Some((Id::new(index, self.arena), value))
    }

    fn size_hint(&self) -> (usize, Option<usize>) {
        self.values.size_hint()
    }
}

impl<T, I: DoubleEndedIterator + ExactSizeIterator> DoubleEndedIterator for WithIds<T, I> {
    fn next_back(&mut self) -> Option<Self::Item> {
        let (index, value) = self.values.next_back()?;
        Some((Id::new(index, self.arena), value))
    }
}

impl<T, I: ExactSizeIterator> ExactSizeIterator for WithIds<T, I> {}

impl<T, I: FusedIterator> FusedIterator for WithIds<T, I> {}

impl<T> Id<T> {
    fn new(index: usize, arena: u32) -> Self {
        Id {
            index,
            arena,
            of: PhantomData,
        }
    }

    /// The place of the value in its arena, from 0.
    pub fn index(self) -> usize {
        self.index
    }

    // The id of another index in the same arena, be it past the end.
    pub(crate) fn with_index(self, index: usize) -> Self {
        Id::new(index, self.arena)
    }

    // Whether it is an id of the same arena as the other.
    pub(crate) fn is_beside(self, other: Self) -> bool {
        self.arena == other.arena
    }

    fn parts(self) -> (u32, usize) {
        (self.arena, self.index)
    }
}

impl<T> Copy for Id<T> {}

impl<T> Clone for Id<T> {
    fn clone(&self) -> Self {
        *self
    }
}

impl<T> PartialEq for Id<T> {
    fn eq(&self, other: &Self) -> bool {
        self.parts() == other.parts()
    }
}

impl<T> Eq for Id<T> {}

impl<T> PartialOrd for Id<T> {
    fn partial_cmp(&self, other: &Self) -> Option<Ordering> {
        Some(self.cmp(other))
    }
}

impl<T> Ord for Id<T> {
    fn cmp(&self, other: &Self) -> Ordering {
        self.parts().cmp(&other.parts())
    }
}

impl<T> Hash for Id<T> {
    fn hash<H: Hasher>(&self, state: &mut H) {
        self.parts().hash(state);
    }
}

impl<T> fmt::Debug for Id<T> {
    fn fmt(&self, f: &mut fmt::Formatter<'_>) -> fmt::Result {
        f.debug_tuple("Id").field(&self.index).finish()
    }
}
