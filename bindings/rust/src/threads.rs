//! A number for each thread that calls a queue. No two threads have one at a time: a thread gives its number back when it ends, and the next one may get it.
use std::cell::Cell;
use std::collections::BTreeSet;
use std::sync::{Mutex, PoisonError};

/// What a thread has in the place of a number that has not asked for one.
const UNASKED: usize = usize::MAX;

/// What a thread has in the place of a number within a call, and as it ends.
pub const AWAY: usize = usize::MAX - 1;

/// The numbers that no thread has: those that were given back, and all from `next` on.
struct Numbers {
    returned: BTreeSet<usize>,
    next: usize,
}

static NUMBERS: Mutex<Numbers> = Mutex::new(Numbers { returned: BTreeSet::new(), next: 0 });

/// A number that this thread has until it ends.
struct Lease(usize);

impl Lease {
    /// The lowest number that no thread has.
    fn new() -> Self {
        let mut numbers = NUMBERS.lock().unwrap_or_else(PoisonError::into_inner);
        Lease(numbers.returned.pop_first().unwrap_or_else(|| {
            numbers.next += 1;
            numbers.next - 1
        }))
    }
}

impl Drop for Lease {
    fn drop(&mut self) {
        // From here on this thread has no number, though what else it drops may call a queue.
        MINE.set(AWAY);
        NUMBERS.lock().unwrap_or_else(PoisonError::into_inner).returned.insert(self.0);
    }
}

thread_local! {
    static LEASE: Lease = Lease::new();
    /// What `LEASE` has, where a look takes no test whether the thread is ending.
    static MINE: Cell<usize> = const { Cell::new(UNASKED) };
}

/// A call of this thread, which has no number until the call ends. So a call within it finds none.
pub struct Turn(usize);

impl Turn {
    /// Takes this thread's number.
    #[inline]
    pub fn begin() -> Self {
        let number = MINE.replace(AWAY);
        Turn(if number == UNASKED { first_number() } else { number })
    }

    /// The number that this thread had, or `AWAY`.
    #[inline]
    pub fn number(&self) -> usize {
        self.0
    }
}

impl Drop for Turn {
    #[inline]
    fn drop(&mut self) {
        MINE.set(self.0);
    }
}

#[cold]
fn first_number() -> usize {
    LEASE.try_with(|lease| lease.0).unwrap_or(AWAY)
}
