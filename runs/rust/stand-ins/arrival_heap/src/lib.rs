//! A heap with as much of the interface of `std::collections::BinaryHeap` as the
//! simulator uses. It adds one thing: among equals the one that came first
//! leaves first. The order of the standard one among equals is unspecified.

use std::cmp::Ordering;
use std::collections::BinaryHeap as Unordered;

/// An item, and how many came before it.
#[derive(Debug, Clone)]
struct Entry<T> {
    item: T,
    arrival: u64,
}

impl<T: Ord> Ord for Entry<T> {
    fn cmp(&self, other: &Self) -> Ordering {
        self.item
            .cmp(&other.item)
            .then_with(|| other.arrival.cmp(&self.arrival))
    }
}

impl<T: Ord> PartialOrd for Entry<T> {
    fn partial_cmp(&self, other: &Self) -> Option<Ordering> {
        Some(self.cmp(other))
    }
}

impl<T: Ord> PartialEq for Entry<T> {
    fn eq(&self, other: &Self) -> bool {
        self.cmp(other) == Ordering::Equal
    }
}

impl<T: Ord> Eq for Entry<T> {}

#[derive(Debug, Clone)]
pub struct BinaryHeap<T: Ord> {
    inner: Unordered<Entry<T>>,
    arrivals: u64,
}

impl<T: Ord> Default for BinaryHeap<T> {
    fn default() -> Self {
        Self::new()
    }
}

impl<T: Ord> BinaryHeap<T> {
    pub fn new() -> Self {
        Self::with_capacity(0)
    }

    pub fn with_capacity(capacity: usize) -> Self {
        BinaryHeap {
            inner: Unordered::with_capacity(capacity),
            arrivals: 0,
        }
    }

    pub fn push(&mut self, item: T) {
        let arrival = self.arrivals;
        self.inner.push(Entry { item, arrival });
        self.arrivals += 1;
    }

    pub fn pop(&mut self) -> Option<T> {
        self.inner.pop().map(|e| e.item)
    }

    pub fn peek(&self) -> Option<&T> {
        self.inner.peek().map(|e| &e.item)
    }

    pub fn iter(&self) -> impl Iterator<Item = &T> {
        self.inner.iter().map(|e| &e.item)
    }

    pub fn len(&self) -> usize {
        self.inner.len()
    }

    pub fn is_empty(&self) -> bool {
        self.inner.is_empty()
    }
}
