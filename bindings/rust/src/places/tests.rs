//! Who takes the lock of a queue's spare parties.
use super::{OTHERS, Places};
use crate::raw::Party;
use std::sync::mpsc::{Receiver, Sender, channel};
use std::sync::{Barrier, Mutex};
use std::thread;
use std::time::Duration;

/// A queue, and what makes its parties.
struct Queue {
    places: Places<u64>,
    first: Mutex<Party<u64>>,
}

impl Queue {
    fn new() -> Self {
        Queue { places: Places::new(), first: Mutex::new(Party::new(None)) }
    }

    fn call(&self) {
        drop(self.places.lend(|| self.first.lock().unwrap().split()));
    }
}

/// So long may a call take that waits for no lock.
const SOON: Duration = Duration::from_secs(20);

/// So long a call is watched that waits for one.
const A_WHILE: Duration = Duration::from_millis(300);

fn ends(ended: &Receiver<()>, within: Duration) -> bool {
    ended.recv_timeout(within).is_ok()
}

/// While so many threads are alive that have once called any queue, each later one takes the lock in each call, and they do not.
#[test]
fn later_threads_lock() {
    let (queue, another) = (Queue::new(), Queue::new());
    queue.call();
    let called = Barrier::new(OTHERS);
    let (one_calls, calls) = channel::<Sender<()>>();
    let (calls, over) = (Mutex::new(calls), Barrier::new(OTHERS));
    thread::scope(|scope| {
        for _ in 1..OTHERS {
            scope.spawn(|| {
                another.call();
                called.wait();
                // Only one of them gets a message.
                if let Ok(tell) = calls.lock().unwrap().recv() {
                    queue.call();
                    tell.send(()).unwrap();
                }
                over.wait();
            });
        }
        called.wait();
        let lock = queue.places.more().spare();
        let (tell, early) = channel();
        one_calls.send(tell).unwrap();
        drop(one_calls);
        let (tell, late) = channel();
        let later = scope.spawn(|| {
            let tell = tell;
            queue.call();
            tell.send(()).unwrap();
        });
        let early_ends = ends(&early, SOON);
        let late_ends = ends(&late, A_WHILE);
        drop(lock);
        let late_ends_at_last = ends(&late, SOON);
        over.wait();
        later.join().unwrap();
        assert_eq!((early_ends, late_ends, late_ends_at_last), (true, false, true));
    });
}
