//! Calls that an allocator makes while a call asks it. It is a file of its own, since a program has one allocator.
use concurrent_queue::ConcurrentQueue;
use std::alloc::{GlobalAlloc, Layout, System};
use std::cell::Cell;
use std::sync::atomic::{AtomicUsize, Ordering};
use std::thread;

/// An item that is boxed, of a size that nothing else has.
type Large = [u64; 1001];

static QUEUE: ConcurrentQueue<Large> = ConcurrentQueue::unbounded();
static LENGTHS: ConcurrentQueue<usize> = ConcurrentQueue::unbounded();
static SIZES: ConcurrentQueue<usize> = ConcurrentQueue::unbounded();
static WRITTEN: AtomicUsize = AtomicUsize::new(0);

thread_local! {
    /// Whether this thread's requests are written down. They are not while one is.
    static WRITES: Cell<bool> = const { Cell::new(false) };
}

/// Writes down how many items the queue has, whenever an item is boxed, and the size of each request of a thread that writes.
struct Calls;

unsafe impl GlobalAlloc for Calls {
    unsafe fn alloc(&self, layout: Layout) -> *mut u8 {
        if layout == Layout::new::<Large>() {
            LENGTHS.push(QUEUE.len()).unwrap();
        }
        if WRITES.replace(false) {
            SIZES.push(layout.size()).unwrap();
            WRITTEN.fetch_add(1, Ordering::SeqCst);
            WRITES.set(true);
        }
        unsafe { System.alloc(layout) }
    }

    unsafe fn dealloc(&self, place: *mut u8, layout: Layout) {
        unsafe { System.dealloc(place, layout) }
    }
}

#[global_allocator]
static ALLOCATOR: Calls = Calls;

#[test]
fn an_allocator_calls_the_queue_that_asks_it() {
    for item in 0..100 {
        QUEUE.push([item; 1001]).unwrap();
    }
    assert!(LENGTHS.try_iter().eq(0..100));
    assert!(QUEUE.try_iter().map(|item| item[1000]).eq(0..100));
}

/// More threads than places read what is written, and write until they have ended.
#[test]
fn an_allocator_writes_each_request_down() {
    let popped = AtomicUsize::new(0);
    thread::scope(|scope| {
        for _ in 0..100 {
            scope.spawn(|| {
                WRITES.set(true);
                for size in 1..100 {
                    popped.fetch_add(usize::from(SIZES.pop().is_ok()), Ordering::SeqCst);
                    drop(vec![0u8; size]);
                }
            });
        }
    });
    let left = SIZES.try_iter().count();
    assert_eq!(popped.into_inner() + left, WRITTEN.load(Ordering::SeqCst));
    assert!(WRITTEN.load(Ordering::SeqCst) >= 100 * 99);
}
