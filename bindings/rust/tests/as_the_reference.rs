//! What a user of the crate sees of it beside its calls: marks, texts, items of each kind, drops. `bindings/check` runs this file over the reference, too.
use concurrent_queue::{ConcurrentQueue, ForcePushError, PopError, PushError, TryIter};
use std::cell::Cell;
use std::error::Error;
use std::fmt::{Debug, Display};
use std::panic::{AssertUnwindSafe, RefUnwindSafe, UnwindSafe, catch_unwind};
use std::rc::Rc;
use std::sync::atomic::{AtomicUsize, Ordering};
use std::thread;

fn goes_to_threads<T: Send + Sync + Unpin + UnwindSafe + RefUnwindSafe>() {}
fn is_an_error<T: Error + Debug + Display + Clone + Copy + PartialEq + Eq + Send + Sync>() {}

#[test]
fn marks() {
    goes_to_threads::<ConcurrentQueue<u64>>();
    goes_to_threads::<ConcurrentQueue<Cell<u8>>>();
    goes_to_threads::<TryIter<'_, u64>>();
    is_an_error::<PopError>();
    is_an_error::<PushError<u64>>();
    is_an_error::<ForcePushError<u64>>();
}

#[test]
fn texts() {
    assert_eq!(format!("{} {} {:?} {:?}", PopError::Empty, PopError::Closed, PopError::Empty, PopError::Closed), "Empty Closed Empty Closed");
    assert_eq!(format!("{} {} {:?} {:?}", PushError::Full(3), PushError::Closed(3), PushError::Full(3), PushError::Closed(3)), "Full Closed Full(3) Closed(3)");
    assert_eq!(format!("{} {:?}", ForcePushError(4), ForcePushError(4)), "Closed ForcePushError(4)");
    let queue = ConcurrentQueue::bounded(2);
    assert_eq!(queue.push(5), Ok(()));
    assert_eq!(format!("{queue:?}"), "ConcurrentQueue { len: 1, capacity: Some(2), is_closed: false }");
    assert_eq!(format!("{:?}", queue.try_iter()), "Iter(ConcurrentQueue { len: 1, capacity: Some(2), is_closed: false })");
}

#[test]
fn an_iterator_and_its_clone() {
    let queue = ConcurrentQueue::unbounded();
    (0..4).for_each(|item| queue.push(item).unwrap());
    let mut items = queue.try_iter();
    assert_eq!((items.next(), items.clone().next()), (Some(0), Some(1)));
    assert_eq!(items.collect::<Vec<_>>(), [2, 3]);
}

#[test]
fn a_static_queue() {
    static QUEUE: ConcurrentQueue<u64> = ConcurrentQueue::unbounded();
    assert_eq!(QUEUE.capacity(), None);
    QUEUE.push(1).unwrap();
    assert_eq!(thread::spawn(|| QUEUE.pop()).join().unwrap(), Ok(1));
    assert!(QUEUE.close() && !QUEUE.close());
    assert_eq!(QUEUE.push(2), Err(PushError::Closed(2)));
}

#[test]
fn capacities_that_no_memory_has() {
    assert!(catch_unwind(|| ConcurrentQueue::<u64>::bounded(0)).is_err());
    for capacity in [usize::MAX, usize::MAX / 2, usize::MAX / 8] {
        assert!(catch_unwind(|| ConcurrentQueue::<u64>::bounded(capacity)).is_err());
    }
}

fn goes_there_and_back<T: Debug + PartialEq + Clone>(item: T) {
    for queue in [ConcurrentQueue::bounded(1), ConcurrentQueue::bounded(3), ConcurrentQueue::unbounded()] {
        for _ in 0..100 {
            assert_eq!(queue.push(item.clone()), Ok(()));
            assert_eq!(queue.force_push(item.clone()), Ok((queue.capacity() == Some(1)).then(|| item.clone())));
            assert_eq!(queue.try_iter().count(), if queue.capacity() == Some(1) { 1 } else { 2 });
        }
        assert_eq!(queue.pop(), Err(PopError::Empty));
    }
}

#[test]
fn items_of_each_size() {
    #[derive(Clone, Debug, PartialEq)]
    #[repr(align(64))]
    struct Aligned(u8);
    goes_there_and_back(());
    goes_there_and_back([1u8; 7]);
    goes_there_and_back([1u8; 15]);
    goes_there_and_back([7u8; 4096]);
    goes_there_and_back(Aligned(3));
    goes_there_and_back(Box::new(5));
    goes_there_and_back("text".to_string());
}

/// One thread may have a queue of items that no other may.
#[test]
fn items_of_one_thread() {
    let queue = ConcurrentQueue::bounded(2);
    let item = Rc::new(7);
    queue.push(Rc::clone(&item)).unwrap();
    queue.push(Rc::clone(&item)).unwrap();
    assert_eq!(Rc::strong_count(&item), 3);
    drop(queue.pop());
    drop(queue);
    assert_eq!(Rc::strong_count(&item), 1);
}

static DROPS: AtomicUsize = AtomicUsize::new(0);

/// An item of no size whose drops are counted.
struct Counted;

impl Drop for Counted {
    fn drop(&mut self) {
        DROPS.fetch_add(1, Ordering::SeqCst);
    }
}

#[test]
fn each_item_is_dropped_once() {
    for queue in [ConcurrentQueue::bounded(1), ConcurrentQueue::bounded(70), ConcurrentQueue::unbounded()] {
        DROPS.store(0, Ordering::SeqCst);
        let pushed = (0..70).filter(|_| queue.push(Counted).is_ok()).count();
        let refused = 70 - pushed;
        drop(queue.pop());
        assert_eq!(DROPS.load(Ordering::SeqCst), refused + 1);
        drop(queue);
        assert_eq!(DROPS.load(Ordering::SeqCst), 70);
    }
}

/// Panics as it is dropped, where it is the second of its queue.
struct Panics(usize);

impl Drop for Panics {
    fn drop(&mut self) {
        assert!(self.0 != 1, "the second item");
    }
}

#[test]
fn a_drop_that_panics_unwinds() {
    for queue in [ConcurrentQueue::bounded(3), ConcurrentQueue::unbounded()] {
        (0..3).for_each(|item| assert!(queue.push(Panics(item)).is_ok()));
        assert!(catch_unwind(AssertUnwindSafe(|| drop(queue))).is_err());
    }
}

/// A thread that ends calls a queue once more, when what it has of its own is dropped.
#[test]
fn a_call_as_the_thread_ends() {
    static QUEUE: ConcurrentQueue<usize> = ConcurrentQueue::unbounded();
    struct Pushes;
    impl Drop for Pushes {
        fn drop(&mut self) {
            QUEUE.push(1).unwrap();
        }
    }
    thread_local! { static LAST: Pushes = const { Pushes } }
    for _ in 0..20 {
        thread::spawn(|| {
            LAST.with(|_| ());
            QUEUE.push(0).unwrap();
        })
        .join()
        .unwrap();
    }
    assert_eq!(QUEUE.try_iter().sum::<usize>(), 20);
    assert!(QUEUE.is_empty());
}
