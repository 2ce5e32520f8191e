//! One party for each user, and no pool.
use crate::errors::{ForcePushError, PopError, PushError};
use crate::raw::{Party, is_dropped};
use std::fmt;
use std::sync::{Arc, Mutex};

/// The party that drops what is left in the queue. Nobody else uses it.
pub(crate) struct Last<T>(pub(crate) Party<T>);

impl<T> Drop for Last<T> {
    fn drop(&mut self) {
        while is_dropped::<T>() && self.0.pop().is_ok() {}
    }
}

/// A user's end of a queue. A thread that uses the queue has one of its own, which `split` makes. It costs what a call from C costs.
pub struct Handle<T> {
    capacity: Option<usize>,
    party: Party<T>,
    // Dropped after the party.
    last: Arc<Mutex<Last<T>>>,
}

impl<T> Handle<T> {
    fn new(capacity: Option<usize>) -> Self {
        let mut party = Party::new(capacity);
        let last = Arc::new(Mutex::new(Last(party.split())));
        Handle { capacity, party, last }
    }

    /// A queue that has room for so many items.
    ///
    /// # Panics
    ///
    /// As [`ConcurrentQueue::bounded`](crate::ConcurrentQueue::bounded).
    pub fn bounded(cap: usize) -> Self {
        assert!(cap > 0, "capacity must be positive");
        Self::new(Some(cap))
    }

    /// A queue without a limit.
    pub fn unbounded() -> Self {
        Self::new(None)
    }

    /// Another end of the same queue.
    pub fn split(&mut self) -> Self {
        Handle { capacity: self.capacity, party: self.party.split(), last: Arc::clone(&self.last) }
    }

    /// Appends an item.
    ///
    /// # Errors
    ///
    /// Where the queue is full or closed, the item comes back.
    #[inline]
    pub fn push(&mut self, item: T) -> Result<(), PushError<T>> {
        self.party.push(item)
    }

    /// Appends an item, and hands the front out where the queue was full.
    ///
    /// # Errors
    ///
    /// Where the queue is closed, the item comes back.
    pub fn force_push(&mut self, item: T) -> Result<Option<T>, ForcePushError<T>> {
        self.party.force_push(item)
    }

    /// Takes the front off.
    ///
    /// # Errors
    ///
    /// Where the queue is empty, which says whether it is closed too.
    #[inline]
    pub fn pop(&mut self) -> Result<T, PopError> {
        self.party.pop()
    }

    /// The number of items at a moment of the call.
    pub fn len(&mut self) -> usize {
        self.party.len()
    }

    /// Whether the queue has no item at a moment of the call.
    pub fn is_empty(&mut self) -> bool {
        self.party.is_empty()
    }

    /// Whether the queue has as many items as its capacity at a moment of the call.
    pub fn is_full(&mut self) -> bool {
        self.party.is_full()
    }

    /// The capacity, if there is one.
    pub fn capacity(&self) -> Option<usize> {
        self.capacity
    }

    /// Pops until nothing is there.
    pub fn try_iter(&mut self) -> impl Iterator<Item = T> + '_ {
        std::iter::from_fn(|| self.pop().ok())
    }

    /// Closes the queue, and tells whether this call did it. The items stay.
    pub fn close(&mut self) -> bool {
        self.party.close()
    }

    /// Whether the queue is closed.
    pub fn is_closed(&mut self) -> bool {
        self.party.is_closed()
    }
}

impl<T> fmt::Debug for Handle<T> {
    fn fmt(&self, f: &mut fmt::Formatter<'_>) -> fmt::Result {
        f.debug_struct("Handle").field("capacity", &self.capacity).finish_non_exhaustive()
    }
}
