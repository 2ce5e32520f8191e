//! The parties of a queue that any thread may use.
use crate::handle::Last;
use crate::places::Places;
use crate::raw::Party;
use std::num::NonZeroUsize;
use std::sync::{Mutex, PoisonError};

/// A party for each thread, at its place or, where it has none, for one call.
pub struct Pool<T> {
    capacity: Option<NonZeroUsize>,
    places: Places<T>,
    /// The party that makes the others, and none before the first call of a queue without a limit. Dropped after the places.
    last: Mutex<Option<Last<T>>>,
}

impl<T> Pool<T> {
    /// The pool of a new queue of this capacity.
    pub fn bounded(capacity: NonZeroUsize) -> Self {
        let last = Last(Party::new(Some(capacity.get())));
        Pool { capacity: Some(capacity), places: Places::new(), last: Mutex::new(Some(last)) }
    }

    /// The pool of a new queue without a limit.
    pub const fn unbounded() -> Self {
        Pool { capacity: None, places: Places::new(), last: Mutex::new(None) }
    }

    /// The capacity, if there is one.
    pub fn capacity(&self) -> Option<usize> {
        self.capacity.map(NonZeroUsize::get)
    }

    #[cold]
    fn another(&self) -> Party<T> {
        self.places.spare().unwrap_or_else(|| {
            let mut last = self.last.lock().unwrap_or_else(PoisonError::into_inner);
            last.get_or_insert_with(|| Last(Party::new(self.capacity()))).0.split()
        })
    }

    /// Runs a call with a party that no other call has.
    #[inline]
    pub fn with<R>(&self, call: impl FnOnce(&mut Party<T>) -> R) -> R {
        call(&mut self.places.lend(|| self.another()))
    }
}
