//! Stands in for the crate arrayvec: the few calls that RustyLR's `table.rs` makes.

use std::ops::Deref;

/// A list of at most `CAP` items.
#[derive(Clone, Debug)]
pub struct ArrayVec<T, const CAP: usize>(Vec<T>);

impl<T, const CAP: usize> Deref for ArrayVec<T, CAP> {
    type Target = [T];

    fn deref(&self) -> &[T] {
        &self.0
    }
}

impl<T, const CAP: usize> FromIterator<T> for ArrayVec<T, CAP> {
    fn from_iter<I: IntoIterator<Item = T>>(items: I) -> Self {
        let items: Vec<T> = items.into_iter().collect();
        assert!(items.len() <= CAP, "more than {CAP} items");
        ArrayVec(items)
    }
}
