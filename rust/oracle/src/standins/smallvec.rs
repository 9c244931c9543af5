//! The crate `smallvec`: a list that holds as many items in place as its array type has places (1 or 2 in the
//! originals), more of them on the heap. Items can be added and read as a slice; nothing else is used. In place like the
//! real one, so that times taken of the originals mean something.

use std::mem;
use std::ops::Deref;
use std::slice;

/// The array types that a `SmallVec` is named by.
pub trait Array: AsRef<[Self::Item]> + Into<Vec<Self::Item>> {
    type Item;

    /// Holds two items: in place if there are two places.
    fn hold_two(first: Self::Item, second: Self::Item) -> SmallVec<Self>;
}

impl<T> Array for [T; 1] {
    type Item = T;

    fn hold_two(first: T, second: T) -> SmallVec<Self> {
        SmallVec::Heap(vec![first, second])
    }
}

impl<T> Array for [T; 2] {
    type Item = T;

    fn hold_two(first: T, second: T) -> SmallVec<Self> {
        SmallVec::Two([first, second])
    }
}

/// The list. Items are only added, so its case depends on its length alone and the derived comparison is that of the items.
#[derive(Clone, Debug, Default, PartialEq, Eq, Hash)]
pub enum SmallVec<A: Array> {
    #[default]
    Empty,
    One(A::Item),
    Two(A),
    Heap(Vec<A::Item>),
}

impl<A: Array> SmallVec<A> {
    pub fn new() -> Self {
        Self::Empty
    }

    pub fn push(&mut self, item: A::Item) {
        *self = match mem::take(self) {
            Self::Empty => Self::One(item),
            Self::One(first) => A::hold_two(first, item),
            Self::Two(items) => Self::on_heap(items.into(), item),
            Self::Heap(items) => Self::on_heap(items, item),
        };
    }

    fn on_heap(mut items: Vec<A::Item>, item: A::Item) -> Self {
        items.push(item);
        Self::Heap(items)
    }
}

impl<A: Array> Deref for SmallVec<A> {
    type Target = [A::Item];

    fn deref(&self) -> &[A::Item] {
        match self {
            Self::Empty => &[],
            Self::One(item) => slice::from_ref(item),
            Self::Two(items) => items.as_ref(),
            Self::Heap(items) => items,
        }
    }
}
