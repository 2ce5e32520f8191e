//! Queues on which `close` answered that it closed them, while another thread pushed by force, and that are open afterwards; with the feature `channel` it is
//! channels of async-channel. `lost_close [COUNT]`. Its status is 1 where there is one.
use std::hint::spin_loop;
use std::process::ExitCode;
use std::sync::atomic::{AtomicUsize, Ordering};
use std::thread;

#[cfg(not(feature = "channel"))]
mod full {
    pub const NAME: &str = "queues";

    pub struct Full(concurrent_queue::ConcurrentQueue<usize>);

    impl Full {
        pub fn of(capacity: usize) -> Self {
            let queue = concurrent_queue::ConcurrentQueue::bounded(capacity);
            (0..capacity).for_each(|item| queue.push(item).expect("there is room"));
            Full(queue)
        }

        pub fn force(&self, item: usize) -> bool {
            self.0.force_push(item).is_ok()
        }

        pub fn close(&self) -> bool {
            self.0.close()
        }

        pub fn is_closed(&self) -> bool {
            self.0.is_closed()
        }
    }
}

#[cfg(feature = "channel")]
mod full {
    pub const NAME: &str = "channels";

    pub struct Full(async_channel::Sender<usize>, async_channel::Receiver<usize>);

    impl Full {
        pub fn of(capacity: usize) -> Self {
            let (sender, receiver) = async_channel::bounded(capacity);
            (0..capacity).for_each(|item| sender.try_send(item).expect("there is room"));
            Full(sender, receiver)
        }

        pub fn force(&self, item: usize) -> bool {
            self.0.force_send(item).is_ok()
        }

        pub fn close(&self) -> bool {
            self.0.close()
        }

        /// Whether a receiver learns that nothing will come, once it has all that is left.
        pub fn is_closed(&self) -> bool {
            while self.1.try_recv().is_ok() {}
            self.0.is_closed() && self.1.try_recv().is_err_and(|error| error.is_closed())
        }
    }
}

use full::{Full, NAME};

fn open_again(capacity: usize, count: usize) -> usize {
    let all: Vec<_> = (0..count).map(|_| Full::of(capacity)).collect();
    let at = AtomicUsize::new(0);
    thread::scope(|scope| {
        scope.spawn(|| {
            for (i, one) in all.iter().enumerate() {
                at.store(i + 1, Ordering::SeqCst);
                let _ = (0..400).find(|item| !one.force(*item));
            }
        });
        for (i, one) in all.iter().enumerate() {
            while at.load(Ordering::SeqCst) <= i {
                spin_loop();
            }
            (0..i % 64).for_each(|_| spin_loop());
            assert!(one.close());
        }
    });
    all.iter().filter(|one| !one.is_closed()).count()
}

fn main() -> ExitCode {
    let count = std::env::args().nth(1).map_or(20_000, |word| word.parse().expect("a number"));
    let mut all = 0;
    for capacity in [1, 2, 4, 64] {
        let open = open_again(capacity, count);
        println!("capacity {capacity}: of {count} {NAME} that were closed, open again {open}");
        all += open;
    }
    if all > 0 { ExitCode::FAILURE } else { ExitCode::SUCCESS }
}
