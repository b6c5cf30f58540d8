//! `react_compiler_utils`: maps and sets that keep the order of insertion; the pass only walks through them.

use super::oxc_allocator::{Allocator, CloneIn, CloneInSemanticIds};
use std::marker::PhantomData;

/// Keys in the order of insertion; a key that is there has its value replaced.
#[derive(Debug)]
pub struct OrderedMap<K, V> {
    entries: Vec<(K, V)>,
}

impl<K, V> Default for OrderedMap<K, V> {
    fn default() -> Self {
        OrderedMap { entries: vec![] }
    }
}

impl<K, V> FromIterator<(K, V)> for OrderedMap<K, V> {
    /// The keys have to be distinct.
    fn from_iter<I: IntoIterator<Item = (K, V)>>(entries: I) -> Self {
        OrderedMap { entries: entries.into_iter().collect() }
    }
}

impl<K: PartialEq, V> OrderedMap<K, V> {
    pub fn insert(&mut self, key: K, value: V) {
        match self.entries.iter_mut().find(|entry| entry.0 == key) {
            Some(entry) => entry.1 = value,
            None => self.entries.push((key, value)),
        }
    }
}

type Entry<K, V> = fn(&(K, V)) -> (&K, &V);
type Entries<'m, K, V> = std::iter::Map<std::slice::Iter<'m, (K, V)>, Entry<K, V>>;

impl<K, V> OrderedMap<K, V> {
    pub fn iter(&self) -> Entries<'_, K, V> {
        self.entries.iter().map(|(key, value)| (key, value))
    }

    pub fn values(&self) -> impl Iterator<Item = &V> {
        self.entries.iter().map(|entry| &entry.1)
    }
}

impl<'m, K, V> IntoIterator for &'m OrderedMap<K, V> {
    type Item = (&'m K, &'m V);
    type IntoIter = Entries<'m, K, V>;
    fn into_iter(self) -> Self::IntoIter {
        self.iter()
    }
}

#[derive(Debug)]
pub struct ArenaOrderedMap<'a, K, V> {
    map: OrderedMap<K, V>,
    arena: PhantomData<&'a ()>,
}

impl<K, V> FromIterator<(K, V)> for ArenaOrderedMap<'_, K, V> {
    fn from_iter<I: IntoIterator<Item = (K, V)>>(entries: I) -> Self {
        ArenaOrderedMap { map: entries.into_iter().collect(), arena: PhantomData }
    }
}

impl<K, V> ArenaOrderedMap<'_, K, V> {
    pub fn values(&self) -> impl Iterator<Item = &V> {
        self.map.values()
    }
}

impl<'a, K: Copy, V: Copy> CloneIn<'a> for ArenaOrderedMap<'a, K, V> {
    type Cloned = Self;
    fn clone_in_impl(&self, _: CloneInSemanticIds, _: &'a Allocator) -> Self {
        self.map.entries.iter().copied().collect()
    }
}

#[derive(Debug)]
pub struct ArenaOrderedSet<'a, K> {
    keys: Vec<K>,
    arena: PhantomData<&'a ()>,
}

impl<K> Default for ArenaOrderedSet<'_, K> {
    fn default() -> Self {
        ArenaOrderedSet { keys: vec![], arena: PhantomData }
    }
}

impl<'a, K: Copy> CloneIn<'a> for ArenaOrderedSet<'a, K> {
    type Cloned = Self;
    fn clone_in_impl(&self, _: CloneInSemanticIds, _: &'a Allocator) -> Self {
        ArenaOrderedSet { keys: self.keys.clone(), arena: PhantomData }
    }
}
