//! Lists of the tree's parts, seen as the runtime's lists of readers.

use std::iter::Map;
use std::slice;

/// A part of the tree that has a reader.
pub trait Part {
    type Reader<'a>
    where
        Self: 'a;

    fn reader(&self) -> Self::Reader<'_>;
}

pub struct List<'a, T>(pub &'a [T]);

impl<'a, T: Part> List<'a, T> {
    pub fn len(&self) -> u32 {
        self.0.len() as u32
    }

    pub fn is_empty(&self) -> bool {
        self.0.is_empty()
    }

    pub fn iter(&self) -> Readers<'a, T> {
        self.0.iter().map(T::reader)
    }
}

type Readers<'a, T> = Map<slice::Iter<'a, T>, fn(&'a T) -> <T as Part>::Reader<'a>>;

impl<'a, T: Part> IntoIterator for List<'a, T> {
    type Item = T::Reader<'a>;
    type IntoIter = Readers<'a, T>;

    fn into_iter(self) -> Self::IntoIter {
        self.iter()
    }
}
