//! Stands for the kit's crate `arrayvec`, where the code is built as Rust: what the crates call of it.
use std::ops::{Deref, DerefMut};

/// At most N elements, which lie one after the other. Its text is that of its elements.
#[derive(Clone)]
pub struct ArrayVec<T, const N: usize>(Vec<T>);

impl<T, const N: usize> ArrayVec<T, N> {
    pub fn new() -> Self {
        Self(Vec::with_capacity(N))
    }

    /// Faults where there is no more room.
    pub fn push(&mut self, element: T) {
        assert!(self.0.len() < N, "no room");
        self.0.push(element);
    }

    pub fn as_slice(&self) -> &[T] {
        &self.0
    }
}

impl<T, const N: usize> Deref for ArrayVec<T, N> {
    type Target = [T];

    fn deref(&self) -> &[T] {
        &self.0
    }
}

impl<T, const N: usize> DerefMut for ArrayVec<T, N> {
    fn deref_mut(&mut self) -> &mut [T] {
        &mut self.0
    }
}

impl<T: std::fmt::Debug, const N: usize> std::fmt::Debug for ArrayVec<T, N> {
    fn fmt(&self, f: &mut std::fmt::Formatter) -> std::fmt::Result {
        self.0.fmt(f)
    }
}
