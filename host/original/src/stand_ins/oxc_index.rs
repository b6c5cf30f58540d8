//! `oxc_index`: vectors and slices with an index type of their own, and index types of 32 bits.

use std::marker::PhantomData;
use std::num::NonZeroU32;
use std::ops::{Deref, DerefMut, Index, IndexMut};

/// A number below `u32::MAX`, so that an `Option` of it takes no more room.
#[derive(Clone, Copy, PartialEq, Eq, PartialOrd, Ord, Hash)]
pub struct NonMaxU32(NonZeroU32);

impl NonMaxU32 {
    pub const MAX: usize = u32::MAX as usize - 1;

    #[inline]
    pub const fn new(number: usize) -> Self {
        assert!(number <= Self::MAX);
        NonMaxU32(NonZeroU32::new(number as u32 + 1).expect("one more than a number"))
    }

    #[inline]
    pub const fn get(self) -> usize {
        self.0.get() as usize - 1
    }
}

pub trait Idx: Copy {
    fn index(self) -> usize;
}

macro_rules! define_nonmax_u32_index_type {
    ($(#[$attribute:meta])* $vis:vis struct $name:ident;) => {
        $(#[$attribute])*
        #[derive(Clone, Copy, PartialEq, Eq, PartialOrd, Ord, Hash)]
        $vis struct $name($crate::stand_ins::oxc_index::NonMaxU32);

        impl $name {
            pub const MAX_INDEX: usize = $crate::stand_ins::oxc_index::NonMaxU32::MAX;

            #[inline]
            pub const fn from_usize(index: usize) -> Self {
                $name($crate::stand_ins::oxc_index::NonMaxU32::new(index))
            }

            #[inline]
            pub const fn index(self) -> usize {
                self.0.get()
            }
        }

        impl $crate::stand_ins::oxc_index::Idx for $name {
            #[inline]
            fn index(self) -> usize {
                self.0.get()
            }
        }

        impl std::fmt::Debug for $name {
            fn fmt(&self, f: &mut std::fmt::Formatter<'_>) -> std::fmt::Result {
                write!(f, "{}({})", stringify!($name), self.index())
            }
        }
    };
}
pub(crate) use define_nonmax_u32_index_type;

#[repr(transparent)]
pub struct IndexSlice<I, T: ?Sized> {
    index: PhantomData<fn(I)>,
    raw: T,
}

pub struct IndexVec<I, T> {
    raw: Vec<T>,
    index: PhantomData<fn(I)>,
}

impl<I, T> IndexVec<I, T> {
    pub fn from_vec(raw: Vec<T>) -> Self {
        IndexVec { raw, index: PhantomData }
    }

    pub fn len(&self) -> usize {
        self.raw.len()
    }

    pub fn push(&mut self, item: T) {
        self.raw.push(item);
    }

    pub fn iter(&self) -> std::slice::Iter<'_, T> {
        self.raw.iter()
    }
}

impl<I, T> Deref for IndexVec<I, T> {
    type Target = IndexSlice<I, [T]>;
    #[inline]
    fn deref(&self) -> &Self::Target {
        // SAFETY: an IndexSlice is laid out as the slice in it.
        unsafe { &*(&self.raw[..] as *const [T] as *const IndexSlice<I, [T]>) }
    }
}

impl<I, T> DerefMut for IndexVec<I, T> {
    #[inline]
    fn deref_mut(&mut self) -> &mut Self::Target {
        // SAFETY: as above.
        unsafe { &mut *(&mut self.raw[..] as *mut [T] as *mut IndexSlice<I, [T]>) }
    }
}

impl<I: Idx, T> Index<I> for IndexSlice<I, [T]> {
    type Output = T;
    #[inline]
    fn index(&self, index: I) -> &T {
        &self.raw[index.index()]
    }
}

impl<I: Idx, T> IndexMut<I> for IndexSlice<I, [T]> {
    #[inline]
    fn index_mut(&mut self, index: I) -> &mut T {
        &mut self.raw[index.index()]
    }
}

impl<I: Idx, T> Index<I> for IndexVec<I, T> {
    type Output = T;
    #[inline]
    fn index(&self, index: I) -> &T {
        &self.raw[index.index()]
    }
}

impl<I: Idx, T> IndexMut<I> for IndexVec<I, T> {
    #[inline]
    fn index_mut(&mut self, index: I) -> &mut T {
        &mut self.raw[index.index()]
    }
}
