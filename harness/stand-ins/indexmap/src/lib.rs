//! Stand-in for `indexmap`: a set in the order of first entry.
//!
//! The source collects such a set in one place, where two Filters merge. So that the harness can measure the plan after
//! each merge as the source makes it, every set that is collected is also kept here, until `collected` takes them.

use std::any::Any;
use std::cell::RefCell;
use std::collections::HashSet;
use std::hash::Hash;

pub struct IndexSet<T>(Vec<T>);

thread_local! {
    static COLLECTED: RefCell<Vec<Box<dyn Any>>> = const { RefCell::new(Vec::new()) };
}

/// Takes the sets of `T` that this thread collected since the last call, in order.
pub fn collected<T: 'static>() -> Vec<Vec<T>> {
    COLLECTED.take().into_iter().filter_map(|set| set.downcast().ok()).map(|set| *set).collect()
}

impl<T: Clone + Eq + Hash + 'static> FromIterator<T> for IndexSet<T> {
    fn from_iter<I: IntoIterator<Item = T>>(elements: I) -> IndexSet<T> {
        let mut met = HashSet::new();
        let set: Vec<T> = elements.into_iter().filter(|element| met.insert(element.clone())).collect();
        COLLECTED.with_borrow_mut(|sets| sets.push(Box::new(set.clone())));
        IndexSet(set)
    }
}

impl<T> IntoIterator for IndexSet<T> {
    type Item = T;
    type IntoIter = std::vec::IntoIter<T>;

    fn into_iter(self) -> Self::IntoIter {
        self.0.into_iter()
    }
}
