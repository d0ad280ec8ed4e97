use std::marker::PhantomData;
use std::ops::{Index, IndexMut};

/// A number that is the index of one kind of vector.
pub trait Idx: Copy + Eq {
    fn new(index: usize) -> Self;
    fn index(self) -> usize;
}

/// A vector with an index type of its own.
#[derive(Clone, Debug)]
pub struct IndexVec<I, T> {
    pub raw: Vec<T>,
    index: PhantomData<fn(&I)>,
}

impl<I, T> Default for IndexVec<I, T> {
    fn default() -> Self {
        IndexVec { raw: Vec::new(), index: PhantomData }
    }
}

impl<I: Idx, T> IndexVec<I, T> {
    pub fn is_empty(&self) -> bool {
        self.raw.is_empty()
    }
    pub fn len(&self) -> usize {
        self.raw.len()
    }
    pub fn next_index(&self) -> I {
        I::new(self.raw.len())
    }
    pub fn last_index(&self) -> Option<I> {
        self.raw.len().checked_sub(1).map(I::new)
    }
    pub fn push(&mut self, value: T) -> I {
        let index = self.next_index();
        self.raw.push(value);
        index
    }
    pub fn pop(&mut self) -> Option<T> {
        self.raw.pop()
    }
    pub fn iter(&self) -> std::slice::Iter<'_, T> {
        self.raw.iter()
    }
    pub fn iter_enumerated(&self) -> impl Iterator<Item = (I, &T)> {
        self.raw.iter().enumerate().map(|(i, value)| (I::new(i), value))
    }
}

impl<I: Idx, T> Index<I> for IndexVec<I, T> {
    type Output = T;
    fn index(&self, index: I) -> &T {
        &self.raw[index.index()]
    }
}

impl<I: Idx, T> IndexMut<I> for IndexVec<I, T> {
    fn index_mut(&mut self, index: I) -> &mut T {
        &mut self.raw[index.index()]
    }
}

/// A 32-bit index type; the original's options (`orderable`, `gate_rustc_only`) ask for no more.
#[macro_export]
macro_rules! newtype_index {
    ($(#[$option:ident])* $vis:vis struct $name:ident {}) => {
        #[derive(Clone, Copy, Debug, PartialEq, Eq, PartialOrd, Ord, Hash)]
        $vis struct $name(u32);

        impl $name {
            $vis fn index(self) -> usize {
                self.0 as usize
            }
        }

        impl $crate::Idx for $name {
            fn new(index: usize) -> Self {
                $name(u32::try_from(index).expect("index fits in 32 bits"))
            }
            fn index(self) -> usize {
                self.0 as usize
            }
        }
    };
}
