//! The users of a queue whose calls are recorded: C's handles, with `--cfg c_handles`, or `ConcurrentQueue` of the crate that this program is linked with. With
//! `--cfg large` the items are larger than a word.
use crate::history::{Call, Reply};

#[cfg(c_handles)]
mod queue {
    use super::{Call, Reply};
    use std::ffi::c_void;
    use std::ptr::null_mut;
    use std::thread::yield_now;

    const DONE: u32 = 0;
    const YES: u32 = 1;
    const FULL: u32 = 2;
    const EMPTY: u32 = 3;
    const CLOSED: u32 = 4;
    const PENDING: u32 = 12;

    pub const NAME: &str = "C handles";

    #[repr(C)]
    pub struct User {
        at: *mut c_void,
    }

    // SAFETY: the header lets a handle go to another thread.
    unsafe impl Send for User {}

    unsafe extern "C" {
        fn queue_c_bounded(out: &mut User, cap: usize) -> u32;
        fn queue_c_unbounded(out: &mut User) -> u32;
        fn queue_c_split(party: &mut User, out: &mut User) -> u32;
        fn queue_c_drop(party: &mut User) -> u32;
        fn queue_c_push(party: &mut User, value: u64) -> u32;
        fn queue_c_force_push(party: &mut User, value: u64, old: &mut u64) -> u32;
        fn queue_c_pop(party: &mut User, value: &mut u64) -> u32;
        fn queue_c_len(party: &mut User, len: &mut u64) -> u32;
        fn queue_c_resume(party: &mut User, value: &mut u64) -> u32;
        fn queue_c_close(party: &mut User) -> u32;
        fn queue_c_is_closed(party: &mut User) -> u32;
        fn queue_c_is_empty(party: &mut User) -> u32;
        fn queue_c_is_full(party: &mut User) -> u32;
    }

    impl User {
        fn none() -> Self {
            User { at: null_mut() }
        }

        /// So many users of one new queue.
        pub fn of_new_queue(capacity: Option<usize>, count: usize) -> Vec<Self> {
            let mut first = User::none();
            // SAFETY, here and below: each handle is in one call at a time, and each pointer is to something else.
            let made = match capacity {
                Some(cap) => unsafe { queue_c_bounded(&mut first, cap) },
                None => unsafe { queue_c_unbounded(&mut first) },
            };
            assert_eq!(made, DONE);
            let mut users: Vec<Self> = (1..count)
                .map(|_| {
                    let mut other = User::none();
                    assert_eq!(unsafe { queue_c_split(&mut first, &mut other) }, DONE);
                    other
                })
                .collect();
            users.push(first);
            users
        }

        pub fn call(&mut self, call: Call) -> Reply {
            let mut value = 0;
            let mut answer = unsafe {
                match call {
                    Call::Push(item) => queue_c_push(self, item),
                    Call::ForcePush(item) => queue_c_force_push(self, item, &mut value),
                    Call::Pop => queue_c_pop(self, &mut value),
                    Call::Close => queue_c_close(self),
                    Call::Len => queue_c_len(self, &mut value),
                    Call::IsEmpty => queue_c_is_empty(self),
                    Call::IsFull => queue_c_is_full(self),
                    Call::IsClosed => queue_c_is_closed(self),
                }
            };
            while answer == PENDING {
                yield_now();
                answer = unsafe { queue_c_resume(self, &mut value) };
            }
            match (call, answer) {
                (Call::Push(_) | Call::ForcePush(_), DONE) => Reply::Done,
                (Call::Push(_), FULL) => Reply::Full,
                (Call::Push(_) | Call::ForcePush(_) | Call::Pop, CLOSED) => Reply::Closed,
                (Call::ForcePush(_), YES) => Reply::Displaced(value),
                (Call::Pop, DONE) => Reply::Item(value),
                (Call::Pop, EMPTY) => Reply::Empty,
                (Call::Len, DONE) => Reply::Len(value as usize),
                (Call::Close | Call::IsEmpty | Call::IsFull | Call::IsClosed, YES | DONE) => Reply::yes_if(answer == YES),
                _ => panic!("{call:?} answers {answer}"),
            }
        }
    }

    impl Drop for User {
        fn drop(&mut self) {
            unsafe { queue_c_drop(self) };
        }
    }
}

#[cfg(not(c_handles))]
mod queue {
    use super::{Call, Reply};
    use concurrent_queue::{ConcurrentQueue, ForcePushError, PopError, PushError};
    use std::sync::Arc;

    pub const NAME: &str = if cfg!(large) { "ConcurrentQueue, items of 24 bytes" } else { "ConcurrentQueue" };

    #[cfg(not(large))]
    type Item = u64;
    #[cfg(large)]
    type Item = [u64; 3];

    #[cfg(not(large))]
    fn item_of(number: u64) -> Item {
        number
    }
    #[cfg(large)]
    fn item_of(number: u64) -> Item {
        [number, !number, number + 1]
    }

    fn number_of(item: Item) -> u64 {
        #[cfg(large)]
        let number = item[0];
        #[cfg(not(large))]
        let number = item;
        assert_eq!(item, item_of(number));
        number
    }

    pub struct User(Arc<ConcurrentQueue<Item>>);

    impl User {
        /// So many users of one new queue.
        pub fn of_new_queue(capacity: Option<usize>, count: usize) -> Vec<Self> {
            let queue = Arc::new(capacity.map_or_else(ConcurrentQueue::unbounded, ConcurrentQueue::bounded));
            (0..count).map(|_| User(Arc::clone(&queue))).collect()
        }

        pub fn call(&mut self, call: Call) -> Reply {
            let queue = &self.0;
            match call {
                Call::Push(number) => match queue.push(item_of(number)) {
                    Ok(()) => Reply::Done,
                    Err(error) => {
                        let reply = if matches!(error, PushError::Full(_)) { Reply::Full } else { Reply::Closed };
                        assert_eq!(number_of(error.into_inner()), number);
                        reply
                    }
                },
                Call::ForcePush(number) => match queue.force_push(item_of(number)) {
                    Ok(displaced) => displaced.map_or(Reply::Done, |item| Reply::Displaced(number_of(item))),
                    Err(ForcePushError(item)) => {
                        assert_eq!(number_of(item), number);
                        Reply::Closed
                    }
                },
                Call::Pop => match queue.pop() {
                    Ok(item) => Reply::Item(number_of(item)),
                    Err(PopError::Empty) => Reply::Empty,
                    Err(PopError::Closed) => Reply::Closed,
                },
                Call::Close => Reply::yes_if(queue.close()),
                Call::Len => Reply::Len(queue.len()),
                Call::IsEmpty => Reply::yes_if(queue.is_empty()),
                Call::IsFull => Reply::yes_if(queue.is_full()),
                Call::IsClosed => Reply::yes_if(queue.is_closed()),
            }
        }
    }
}

pub use queue::{NAME, User};
