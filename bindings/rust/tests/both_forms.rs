//! What the reference's tests do not try: the handles, the pool beyond its places, items of each size, and who drops what is left.
use concurrent_queue::{ConcurrentQueue, ForcePushError, Handle, PopError, PushError};
use std::os::unix::process::ExitStatusExt;
use std::panic::catch_unwind;
use std::process::Command;
use std::sync::atomic::{AtomicUsize, Ordering};
use std::thread;

const THREADS: usize = 4;
const EACH: usize = 10_000;

/// Counts its drops.
struct Counted<'a>(&'a AtomicUsize);

impl Drop for Counted<'_> {
    fn drop(&mut self) {
        self.0.fetch_add(1, Ordering::SeqCst);
    }
}

/// Each number of the pushers came once.
fn all_came_once(mut popped: Vec<usize>) {
    popped.sort_unstable();
    assert!(popped.into_iter().eq(0..THREADS * EACH));
}

fn by_handles(mut first: Handle<usize>) {
    let (sender, receiver) = std::sync::mpsc::channel();
    thread::scope(|scope| {
        for t in 0..THREADS {
            let mut handle = first.split();
            scope.spawn(move || {
                for i in 0..EACH {
                    while handle.push(t * EACH + i).is_err() {
                        thread::yield_now();
                    }
                }
            });
            let mut handle = first.split();
            let sender = sender.clone();
            scope.spawn(move || {
                let mut popped = Vec::new();
                while popped.len() < EACH {
                    match handle.pop() {
                        Ok(n) => popped.push(n),
                        Err(_) => thread::yield_now(),
                    }
                }
                sender.send(popped).unwrap();
            });
        }
    });
    drop(sender);
    assert!(first.is_empty());
    all_came_once(receiver.into_iter().flatten().collect());
}

#[test]
fn handles_of_one_slot() {
    by_handles(Handle::bounded(1));
}

#[test]
fn handles_of_a_ring() {
    by_handles(Handle::bounded(3));
}

#[test]
fn handles_of_a_chain() {
    by_handles(Handle::unbounded());
}

#[test]
fn each_call_of_a_handle() {
    let mut a = Handle::bounded(2);
    let mut b = a.split();
    assert_eq!(a.push(1), Ok(()));
    assert_eq!(b.push(2), Ok(()));
    assert_eq!(a.push(3), Err(PushError::Full(3)));
    assert!(b.is_full() && !b.is_empty() && b.len() == 2);
    assert_eq!(b.force_push(3), Ok(Some(1)));
    assert!(a.close() && !b.close() && b.is_closed());
    assert_eq!(a.push(4), Err(PushError::Closed(4)));
    assert_eq!(a.force_push(4), Err(ForcePushError(4)));
    assert_eq!((a.pop(), b.pop(), a.pop()), (Ok(2), Ok(3), Err(PopError::Closed)));
}

#[test]
fn what_a_handle_tells() {
    let mut bounded = Handle::bounded(3);
    let mut unbounded = Handle::unbounded();
    assert_eq!((bounded.split().capacity(), unbounded.split().capacity()), (Some(3), None));
    assert_eq!(format!("{bounded:?} {unbounded:?}"), "Handle { capacity: Some(3), .. } Handle { capacity: None, .. }");
    for item in 0..100 {
        assert_eq!(bounded.push(item).is_ok(), item < 3);
        assert_eq!(unbounded.push(item), Ok(()));
    }
    assert!(bounded.try_iter().eq(0..3) && unbounded.split().try_iter().eq(0..100));
    assert!(bounded.is_empty() && unbounded.is_empty());
}

#[test]
fn the_last_handle_drops_what_is_left() {
    let drops = AtomicUsize::new(0);
    let mut a = Handle::unbounded();
    let mut b = a.split();
    for _ in 0..100 {
        assert!(a.push(Counted(&drops)).is_ok());
    }
    drop(a);
    drop(b.pop());
    assert_eq!(drops.load(Ordering::SeqCst), 1);
    drop(b);
    assert_eq!(drops.load(Ordering::SeqCst), 100);
}

#[test]
fn a_queue_drops_what_is_left() {
    let drops = AtomicUsize::new(0);
    let queue = ConcurrentQueue::bounded(10);
    for _ in 0..7 {
        assert!(queue.push(Counted(&drops)).is_ok());
    }
    assert!(queue.force_push(Counted(&drops)).is_ok());
    assert_eq!(drops.load(Ordering::SeqCst), 0);
    drop(queue);
    assert_eq!(drops.load(Ordering::SeqCst), 8);
}

fn goes_through<T: PartialEq + std::fmt::Debug + Clone>(item: T) {
    let queue = ConcurrentQueue::bounded(1);
    assert_eq!(queue.push(item.clone()), Ok(()));
    assert_eq!(queue.push(item.clone()), Err(PushError::Full(item.clone())));
    assert_eq!(queue.force_push(item.clone()), Ok(Some(item.clone())));
    assert_eq!(queue.pop(), Ok(item));
}

#[test]
fn items_of_each_size() {
    #[derive(Clone, Debug, PartialEq)]
    #[repr(align(64))]
    struct Wide(u8);
    goes_through(());
    goes_through((1u8, 2u32));
    goes_through(Box::new(5));
    goes_through("text".to_string());
    goes_through([7u64; 100]);
    goes_through(Wide(3));
}

/// The slots have fewer bytes than `isize::MAX`, and more than any memory: a process that asks for them ends.
#[test]
fn a_capacity_that_no_memory_has() {
    const FORM: &str = "FORM_WITHOUT_MEMORY";
    let large = isize::MAX as usize / 64;
    match std::env::var(FORM).as_deref() {
        Ok("queue") => drop(ConcurrentQueue::<u64>::bounded(large)),
        Ok(_) => drop(Handle::<u64>::bounded(large)),
        Err(_) => {
            for form in ["queue", "handle"] {
                let mut program = Command::new(std::env::current_exe().unwrap());
                let ended = program.args(["--exact", "a_capacity_that_no_memory_has"]).env(FORM, form).output().unwrap();
                assert_eq!(ended.status.signal(), Some(6), "{ended:?}");
            }
        }
    }
}

#[test]
fn a_capacity_whose_slots_have_too_many_bytes() {
    for capacity in [0, isize::MAX as usize / 16 + 1, usize::MAX] {
        assert!(catch_unwind(|| Handle::<u64>::bounded(capacity)).is_err());
        assert!(catch_unwind(|| ConcurrentQueue::<u64>::bounded(capacity)).is_err());
    }
}

/// More threads than places, so that some share a place and parties go to the reserve and back.
#[test]
fn more_threads_than_places() {
    let queue = ConcurrentQueue::unbounded();
    let (sender, receiver) = std::sync::mpsc::channel();
    thread::scope(|scope| {
        for t in 0..200 {
            let (queue, sender) = (&queue, sender.clone());
            scope.spawn(move || {
                for i in 0..50 {
                    queue.push(t * 50 + i).unwrap();
                    sender.send(queue.pop().unwrap()).unwrap();
                }
            });
        }
    });
    drop(sender);
    let mut popped: Vec<_> = receiver.into_iter().collect();
    popped.sort_unstable();
    assert!(popped.into_iter().eq(0..200 * 50));
}
