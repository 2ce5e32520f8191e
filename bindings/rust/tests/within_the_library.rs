//! Calls that C's allocator makes while a push asks it for a block. It is a file of its own, since a program has one `malloc`.
#![cfg(target_env = "gnu")]
use concurrent_queue::ConcurrentQueue;
use std::cell::Cell;
use std::ffi::c_void;

static QUEUE: ConcurrentQueue<usize> = ConcurrentQueue::unbounded();

/// An item that is pushed within a call.
const WITHIN: usize = usize::MAX;

thread_local! {
    /// How many requests this thread's calls made, while they are counted. They are not within one.
    static REQUESTS: Cell<Option<usize>> = const { Cell::new(None) };
}

unsafe extern "C" {
    /// What `malloc` is in glibc.
    fn __libc_malloc(size: usize) -> *mut c_void;
}

/// Calls the queue that asks it.
#[unsafe(no_mangle)]
extern "C" fn malloc(size: usize) -> *mut c_void {
    if let Some(requests) = REQUESTS.take() {
        QUEUE.push(WITHIN).unwrap();
        assert!(!QUEUE.is_empty() && !QUEUE.is_closed() && QUEUE.len() > requests);
        REQUESTS.set(Some(requests + 1));
    }
    // SAFETY: it is the allocator that `free` belongs to.
    unsafe { __libc_malloc(size) }
}

#[test]
fn c_s_allocator_calls_the_queue_that_asks_it() {
    // The thread has its party, and another one for the calls within.
    QUEUE.push(0).unwrap();
    REQUESTS.set(Some(0));
    (1..1000).for_each(|item| QUEUE.push(item).unwrap());
    let requests = REQUESTS.take().unwrap();
    assert!(requests >= 10);
    let (within, items): (Vec<_>, Vec<_>) = QUEUE.try_iter().partition(|item| *item == WITHIN);
    assert_eq!(within.len(), requests);
    assert!(items.into_iter().eq(0..1000));
}
