//! `Vec` and `String` for tests: a function that allocates takes an allocator, and returns a `Result`.

use crate::alloc::{AllocError, AllocFailed, Global};
use std::ops::{Deref, DerefMut};

#[derive(Debug, PartialEq, Eq)]
pub struct Vec<T>(std::vec::Vec<T>);

impl<T> Vec<T> {
    pub fn new(_alloc: Global) -> Vec<T> {
        Vec(std::vec::Vec::new())
    }

    pub fn of<const N: usize>(_alloc: Global, items: [T; N]) -> Result<Vec<T>, AllocError> {
        Ok(Vec(std::vec::Vec::from(items)))
    }

    pub fn push(&mut self, item: T) -> Result<(), AllocFailed<T>> {
        self.0.push(item);
        Ok(())
    }

    pub fn insert(&mut self, at: usize, item: T) -> Result<(), AllocFailed<T>> {
        self.0.insert(at, item);
        Ok(())
    }

    pub fn remove(&mut self, at: usize) -> T {
        self.0.remove(at)
    }

    pub fn truncate(&mut self, len: usize) {
        self.0.truncate(len)
    }

    pub fn as_slice(&self) -> &[T] {
        &self.0
    }

    pub fn as_mut_slice(&mut self) -> &mut [T] {
        &mut self.0
    }
}

impl<T: Clone> Vec<T> {
    pub fn from_elem(_alloc: Global, item: T, count: usize) -> Result<Vec<T>, AllocError> {
        Ok(Vec(vec![item; count]))
    }

    pub fn extend_from_slice(&mut self, items: &[T]) -> Result<(), AllocError> {
        self.0.extend_from_slice(items);
        Ok(())
    }

    #[allow(clippy::should_implement_trait)]
    pub fn clone(&self) -> Result<Vec<T>, AllocError> {
        Ok(Vec(self.0.clone()))
    }
}

impl<T> Deref for Vec<T> {
    type Target = [T];

    fn deref(&self) -> &[T] {
        &self.0
    }
}

impl<T> DerefMut for Vec<T> {
    fn deref_mut(&mut self) -> &mut [T] {
        &mut self.0
    }
}

impl<T> IntoIterator for Vec<T> {
    type Item = T;
    type IntoIter = std::vec::IntoIter<T>;

    fn into_iter(self) -> Self::IntoIter {
        self.0.into_iter()
    }
}

impl<'a, T> IntoIterator for &'a Vec<T> {
    type Item = &'a T;
    type IntoIter = std::slice::Iter<'a, T>;

    fn into_iter(self) -> Self::IntoIter {
        self.0.iter()
    }
}

impl std::io::Write for Vec<u8> {
    fn write(&mut self, buf: &[u8]) -> std::io::Result<usize> {
        self.0.write(buf)
    }

    fn flush(&mut self) -> std::io::Result<()> {
        Ok(())
    }
}

/// `slice.to_vec(alloc)`, `text.repeat(alloc, count)`: the names that `tools/plain_rust` gives them.
pub trait ToVec<T> {
    fn to_vec_in(&self, alloc: Global) -> Result<Vec<T>, AllocError>;
}

impl<T: Clone> ToVec<T> for [T] {
    fn to_vec_in(&self, _alloc: Global) -> Result<Vec<T>, AllocError> {
        Ok(Vec(self.to_vec()))
    }
}

pub trait Repeat {
    fn repeat_in(&self, alloc: Global, count: usize) -> Result<String, AllocError>;
}

impl Repeat for str {
    fn repeat_in(&self, _alloc: Global, count: usize) -> Result<String, AllocError> {
        Ok(String(self.repeat(count)))
    }
}

impl std::fmt::Display for String {
    fn fmt(&self, f: &mut std::fmt::Formatter<'_>) -> std::fmt::Result {
        self.0.fmt(f)
    }
}

#[derive(Debug, PartialEq, Eq)]
pub struct String(std::string::String);

impl String {
    pub fn new(_alloc: Global) -> String {
        String(std::string::String::new())
    }

    pub fn from_str(_alloc: Global, text: &str) -> Result<String, AllocError> {
        Ok(String(text.to_owned()))
    }

    pub fn from_utf8_lossy(_alloc: Global, bytes: &[u8]) -> Result<String, AllocError> {
        Ok(String(
            std::string::String::from_utf8_lossy(bytes).into_owned(),
        ))
    }

    pub fn push_str(&mut self, text: &str) -> Result<(), AllocError> {
        self.0.push_str(text);
        Ok(())
    }

    pub fn push(&mut self, letter: char) -> Result<(), AllocError> {
        self.0.push(letter);
        Ok(())
    }

    pub fn as_str(&self) -> &str {
        &self.0
    }
}

impl Deref for String {
    type Target = str;

    fn deref(&self) -> &str {
        &self.0
    }
}
