//! Queues of any items, first in first out, that can be closed, over the proved static library `queue_c`.
//!
//! [`ConcurrentQueue`] has the names of the crate `concurrent-queue` 2.5.0, and any thread may use one behind a `&`. The library has a party for each of its
//! users, so the queue keeps one for each thread that calls it. [`Handle`] is one party, and needs no look for it.
//!
//! An item that fits a word is a word of the queue. A larger one is boxed.
//!
//! It needs the standard library, and Linux on x86-64 or aarch64, whichever features are asked for. No call is made in a signal handler, or in the forked child of
//! a process with threads.
#![deny(unsafe_code, missing_docs)]

#[cfg(feature = "loom")]
compile_error!("the feature `loom` is of the reference's own steps: here the steps are the library's, which loom cannot see");

mod errors;
mod handle;
#[allow(unsafe_code)]
mod places;
mod pool;
#[allow(unsafe_code)]
mod raw;
#[cfg(doctest)]
mod refused;
mod threads;

pub use errors::{ForcePushError, PopError, PushError};
pub use handle::Handle;

use pool::Pool;
use raw::Party;
use std::fmt;
use std::num::NonZeroUsize;
use std::panic::{RefUnwindSafe, UnwindSafe};

/// A queue that any thread may use.
pub struct ConcurrentQueue<T> {
    pool: Pool<T>,
}

impl<T> UnwindSafe for ConcurrentQueue<T> {}
impl<T> RefUnwindSafe for ConcurrentQueue<T> {}

impl<T> ConcurrentQueue<T> {
    /// A queue that has room for so many items.
    ///
    /// # Panics
    ///
    /// Where the capacity is 0, or its slots, of an item and a word each, have more than `isize::MAX` bytes. Where they have not and there is no memory for them, the
    /// process ends, as with a `Vec`.
    pub fn bounded(cap: usize) -> Self {
        ConcurrentQueue { pool: Pool::bounded(NonZeroUsize::new(cap).expect("capacity must be positive")) }
    }

    /// A queue without a limit. It asks for memory at its first call.
    pub const fn unbounded() -> Self {
        ConcurrentQueue { pool: Pool::unbounded() }
    }

    /// Appends an item.
    ///
    /// # Errors
    ///
    /// Where the queue is full or closed, the item comes back.
    pub fn push(&self, value: T) -> Result<(), PushError<T>> {
        self.pool.with(|party| party.push(value))
    }

    /// Appends an item, and hands the front out where the queue was full.
    ///
    /// # Errors
    ///
    /// Where the queue is closed, the item comes back.
    pub fn force_push(&self, value: T) -> Result<Option<T>, ForcePushError<T>> {
        self.pool.with(|party| party.force_push(value))
    }

    /// Takes the front off.
    ///
    /// # Errors
    ///
    /// Where the queue is empty, which says whether it is closed too.
    pub fn pop(&self) -> Result<T, PopError> {
        self.pool.with(Party::pop)
    }

    /// Pops until nothing is there.
    pub fn try_iter(&self) -> TryIter<'_, T> {
        TryIter { queue: self }
    }

    /// Whether the queue has no item at a moment of the call.
    pub fn is_empty(&self) -> bool {
        self.pool.with(Party::is_empty)
    }

    /// Whether the queue has as many items as its capacity at a moment of the call.
    pub fn is_full(&self) -> bool {
        self.pool.with(Party::is_full)
    }

    /// The number of items at a moment of the call.
    pub fn len(&self) -> usize {
        self.pool.with(Party::len)
    }

    /// The capacity, if there is one.
    pub fn capacity(&self) -> Option<usize> {
        self.pool.capacity()
    }

    /// Closes the queue, and tells whether this call did it. The items stay.
    pub fn close(&self) -> bool {
        self.pool.with(Party::close)
    }

    /// Whether the queue is closed.
    pub fn is_closed(&self) -> bool {
        self.pool.with(Party::is_closed)
    }
}

impl<T> fmt::Debug for ConcurrentQueue<T> {
    fn fmt(&self, f: &mut fmt::Formatter<'_>) -> fmt::Result {
        f.debug_struct("ConcurrentQueue")
            .field("len", &self.len())
            .field("capacity", &self.capacity())
            .field("is_closed", &self.is_closed())
            .finish()
    }
}

/// Takes items off a queue until nothing is there.
#[must_use = "an iterator takes nothing until it is asked"]
pub struct TryIter<'a, T> {
    queue: &'a ConcurrentQueue<T>,
}

impl<T> Clone for TryIter<'_, T> {
    fn clone(&self) -> Self {
        TryIter { queue: self.queue }
    }
}

impl<T> fmt::Debug for TryIter<'_, T> {
    fn fmt(&self, f: &mut fmt::Formatter<'_>) -> fmt::Result {
        f.debug_tuple("Iter").field(&self.queue).finish()
    }
}

impl<T> Iterator for TryIter<'_, T> {
    type Item = T;

    fn next(&mut self) -> Option<T> {
        self.queue.pop().ok()
    }
}
