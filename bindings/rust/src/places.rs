//! Places for parties, each of which is one thread's.
use crate::raw::Party;
use crate::threads::{AWAY, Turn};
use std::cell::UnsafeCell;
use std::mem::{ManuallyDrop, forget, swap};
use std::ops::{Deref, DerefMut};
use std::sync::atomic::{AtomicUsize, Ordering};
use std::sync::{Mutex, MutexGuard, OnceLock, PoisonError};

#[cfg(test)]
mod tests;

/// How many threads have a place beside the first one.
const OTHERS: usize = 64;

/// A number that no thread has.
const NOBODY: usize = usize::MAX;

/// A place for a party, which stays there while it is lent. A call that leaves it as it was writes nothing there, so places share cache lines.
struct Place<T>(UnsafeCell<Option<Party<T>>>);

impl<T> Place<T> {
    const fn new() -> Self {
        Place(UnsafeCell::new(None))
    }

    /// The party that is there.
    ///
    /// # Safety
    ///
    /// The place is this thread's, and its party is lent to nobody. It has to be put back, and not to be dropped.
    #[inline]
    unsafe fn lend(&self) -> Option<Party<T>> {
        // SAFETY: nobody else looks at it, and the caller sees to it that one of the two is dropped.
        unsafe { self.0.get().read() }
    }

    /// Puts the party back that was lent, or one where there was none.
    ///
    /// # Safety
    ///
    /// The place is this thread's, and has no other party.
    #[inline]
    unsafe fn put_back(&self, party: Party<T>) {
        // SAFETY: nobody else looks at it.
        let there = unsafe { &mut *self.0.get() };
        if there.as_ref().is_some_and(|there| there.has_the_handle_of(&party)) {
            forget(party);
        } else {
            // What is there, if anything, is the handle of before.
            forget(there.replace(party));
        }
    }
}

/// What a queue has once a second thread has come: a place for each thread by its number, and the parties that are at no place.
struct More<T> {
    places: [Place<T>; OTHERS],
    spare: Mutex<Vec<Party<T>>>,
}

impl<T> More<T> {
    fn new() -> Box<Self> {
        Box::new(More { places: [const { Place::new() }; OTHERS], spare: Mutex::new(Vec::new()) })
    }

    fn spare(&self) -> MutexGuard<'_, Vec<Party<T>>> {
        self.spare.lock().unwrap_or_else(PoisonError::into_inner)
    }

    /// Keeps a party that is at no place. It asks for memory before it has the lock, since the allocator may call this queue.
    fn keep(&self, party: Party<T>) {
        let mut larger = Vec::new();
        loop {
            let mut spare = self.spare();
            if spare.len() == spare.capacity() {
                let room = 2 * spare.len() + 1;
                if larger.capacity() < room {
                    drop(spare);
                    larger = Vec::with_capacity(room);
                    continue;
                }
                larger.append(&mut spare);
                swap(&mut larger, &mut spare);
            }
            spare.push(party);
            return;
        }
    }
}

/// The places of a queue: one of the first thread that asks, and one of each other thread, by its number. A thread with a higher number has none.
pub struct Places<T> {
    /// The number of the thread that has the first place. Once there is one it never changes.
    first_of: AtomicUsize,
    first: Place<T>,
    more: OnceLock<Box<More<T>>>,
}

// SAFETY: each place is looked at only by the thread that has its number, and no two threads have one at a time. Where a number goes from a thread that ended to
// another one, a lock orders the two. So a party is in the hands of one thread at a time, and it may go to another as its items may.
unsafe impl<T: Send> Sync for Places<T> {}

impl<T> Places<T> {
    pub const fn new() -> Self {
        Places { first_of: AtomicUsize::new(NOBODY), first: Place::new(), more: OnceLock::new() }
    }

    fn more(&self) -> &More<T> {
        self.more.get().unwrap_or_else(|| {
            // A call within this request may be the first to have it.
            let more = More::new();
            self.more.get_or_init(|| more)
        })
    }

    /// The place of the thread with this number, if it has one.
    #[inline]
    fn of(&self, number: usize) -> Option<&Place<T>> {
        if self.first_of.load(Ordering::Relaxed) == number { Some(&self.first) } else { self.another(number) }
    }

    fn another(&self, number: usize) -> Option<&Place<T>> {
        if number == AWAY {
            return None;
        }
        if self.first_of.load(Ordering::Relaxed) == NOBODY && self.first_of.compare_exchange(NOBODY, number, Ordering::Relaxed, Ordering::Relaxed).is_ok() {
            return Some(&self.first);
        }
        self.more().places.get(number)
    }

    /// A party that is at no place.
    #[cold]
    pub fn spare(&self) -> Option<Party<T>> {
        self.more.get()?.spare().pop()
    }

    #[cold]
    fn give_back(&self, party: Party<T>) {
        self.more().keep(party);
    }

    /// Lends this thread a party that no other call has: the one at its place, or else another.
    #[inline]
    pub fn lend(&self, another: impl FnOnce() -> Party<T>) -> Lent<'_, T> {
        let turn = Turn::begin();
        let place = self.of(turn.number());
        // SAFETY: this thread has no number until the turn ends, so no other call looks at the place. What is lent drops nothing.
        let party = ManuallyDrop::new(place.and_then(|place| unsafe { place.lend() }).unwrap_or_else(another));
        Lent { places: self, place, party, _turn: turn }
    }
}

/// A party that a call has.
pub struct Lent<'a, T> {
    places: &'a Places<T>,
    place: Option<&'a Place<T>>,
    party: ManuallyDrop<Party<T>>,
    // Ends after the party is back.
    _turn: Turn,
}

impl<T> Deref for Lent<'_, T> {
    type Target = Party<T>;

    #[inline]
    fn deref(&self) -> &Party<T> {
        &self.party
    }
}

impl<T> DerefMut for Lent<'_, T> {
    #[inline]
    fn deref_mut(&mut self) -> &mut Party<T> {
        &mut self.party
    }
}

impl<T> Drop for Lent<'_, T> {
    #[inline]
    fn drop(&mut self) {
        // SAFETY: it is taken here alone, and the place, if there is one, is the one that it was lent from.
        unsafe {
            let party = ManuallyDrop::take(&mut self.party);
            match self.place {
                Some(place) => place.put_back(party),
                None => self.places.give_back(party),
            }
        }
    }
}
