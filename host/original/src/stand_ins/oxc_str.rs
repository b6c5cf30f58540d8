//! `oxc_str`: strings that live in the source or the arena.

use super::oxc_allocator::{Allocator, CloneIn, CloneInSemanticIds};
use std::fmt;
use std::ops::Deref;

/// A name.
#[derive(Clone, Copy, PartialEq, Eq, Hash)]
pub struct Ident<'a>(&'a str);

impl<'a> Ident<'a> {
    pub const fn new(text: &'a str) -> Self {
        Ident(text)
    }

    pub const fn empty() -> Self {
        Ident("")
    }

    pub const fn as_str(&self) -> &'a str {
        self.0
    }
}

impl Deref for Ident<'_> {
    type Target = str;
    fn deref(&self) -> &str {
        self.0
    }
}

impl PartialEq<str> for Ident<'_> {
    fn eq(&self, other: &str) -> bool {
        self.0 == other
    }
}

impl PartialEq<&str> for Ident<'_> {
    fn eq(&self, other: &&str) -> bool {
        self.0 == *other
    }
}

impl fmt::Debug for Ident<'_> {
    fn fmt(&self, f: &mut fmt::Formatter<'_>) -> fmt::Result {
        fmt::Debug::fmt(self.0, f)
    }
}

impl fmt::Display for Ident<'_> {
    fn fmt(&self, f: &mut fmt::Formatter<'_>) -> fmt::Result {
        f.write_str(self.0)
    }
}

/// Any other string.
#[derive(Debug, Clone, Copy, PartialEq, Eq, Hash)]
pub struct Str<'a>(pub &'a str);

impl<'a> CloneIn<'a> for Str<'a> {
    type Cloned = Self;
    fn clone_in_impl(&self, _: CloneInSemanticIds, _: &'a Allocator) -> Self {
        *self
    }
}

/// A name in the arena, written as by `format!`.
macro_rules! format_ident {
    ($allocator:expr, $($text:tt)*) => {
        $crate::stand_ins::oxc_str::Ident::new($allocator.alloc_str(&format!($($text)*)))
    };
}
pub(crate) use format_ident;
