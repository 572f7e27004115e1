//! Stand-in for `itertools`: `unique` alone.

use std::collections::HashSet;
use std::hash::Hash;

pub trait Itertools: Iterator {
    /// The first of all equal elements, in order.
    fn unique(self) -> impl Iterator<Item = Self::Item>
    where
        Self: Sized,
        Self::Item: Clone + Eq + Hash,
    {
        let mut met = HashSet::new();
        self.filter(move |element| met.insert(element.clone()))
    }
}

impl<I: Iterator> Itertools for I {}
