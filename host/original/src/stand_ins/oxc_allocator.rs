//! `oxc_allocator`: an arena for the strings that the pass makes, a vector with an arena's lifetime, `CloneIn`.

use std::cell::RefCell;
use std::marker::PhantomData;
use std::ops::{Deref, DerefMut};
use std::vec::Vec as StdVec;

const CHUNK: usize = 4_096;

/// Strings that live as long as the arena.
#[derive(Debug, Default)]
pub struct Allocator {
    chunks: RefCell<StdVec<String>>,
}

impl Allocator {
    pub fn alloc_str<'a>(&'a self, text: &str) -> &'a str {
        let mut chunks = self.chunks.borrow_mut();
        if chunks.last().is_none_or(|last| last.capacity() - last.len() < text.len()) {
            chunks.push(String::with_capacity(CHUNK.max(text.len())));
        }
        let chunk = chunks.last_mut().expect("a chunk with room");
        let start = chunk.len();
        chunk.push_str(text);
        // SAFETY: a chunk is filled within its capacity, so its bytes neither move nor change while the arena lives.
        unsafe { &*(&chunk[start..] as *const str) }
    }
}

/// A vector of which the arena's lifetime is a part.
#[derive(Debug)]
pub struct Vec<'a, T>(StdVec<T>, PhantomData<&'a ()>);

impl<T> Vec<'_, T> {
    pub fn from_vec(items: StdVec<T>) -> Self {
        Vec(items, PhantomData)
    }
}

impl<T> Deref for Vec<'_, T> {
    type Target = [T];
    fn deref(&self) -> &[T] {
        &self.0
    }
}

impl<T> DerefMut for Vec<'_, T> {
    fn deref_mut(&mut self) -> &mut [T] {
        &mut self.0
    }
}

impl<'v, T> IntoIterator for &'v Vec<'_, T> {
    type Item = &'v T;
    type IntoIter = std::slice::Iter<'v, T>;
    fn into_iter(self) -> Self::IntoIter {
        self.0.iter()
    }
}

#[derive(Clone, Copy)]
pub struct CloneInSemanticIds;

pub trait CloneIn<'a> {
    type Cloned;
    fn clone_in_impl(&self, ids: CloneInSemanticIds, allocator: &'a Allocator) -> Self::Cloned;
}

impl<'a, T: CloneIn<'a>> CloneIn<'a> for Vec<'_, T> {
    type Cloned = Vec<'a, T::Cloned>;
    fn clone_in_impl(&self, ids: CloneInSemanticIds, allocator: &'a Allocator) -> Self::Cloned {
        Vec::from_vec(self.iter().map(|one| one.clone_in_impl(ids, allocator)).collect())
    }
}
