//! Nanoseconds for a push and a pop, from Rust: by one thread, and by four that push and four that pop. Nanoseconds of a queue that is made, used once and dropped.
//! The best of so many runs. And the bytes of a queue that one thread has used, its own with those that it has from the allocator. It is built over our crate, with
//! `--cfg ours`, and over the crate `concurrent-queue`.
use concurrent_queue::ConcurrentQueue;
#[cfg(ours)]
use concurrent_queue::Handle;
use std::sync::Arc;
use std::thread;
use std::time::Instant;

const RUNS: usize = 9;
const PAIRS: u64 = 50_000;
const THREADS: u64 = 4;
const EACH: u64 = 2_000;
const MADE: u32 = 2_000;
const MANY: usize = 1_000;

/// What glibc's allocator counts.
#[repr(C)]
struct Counts {
    before: [usize; 7],
    in_use: usize,
    after: [usize; 2],
}

unsafe extern "C" {
    safe fn mallinfo2() -> Counts;
}

/// What a user of a queue has.
trait User: Sized + Send {
    fn open(cap: usize) -> Self;
    fn push(&mut self, n: u64) -> bool;
    fn pop(&mut self) -> Option<u64>;
    fn others(&mut self) -> Vec<Self>;
}

#[cfg(ours)]
impl User for Handle<u64> {
    fn open(cap: usize) -> Self {
        if cap == 0 { Handle::unbounded() } else { Handle::bounded(cap) }
    }
    fn push(&mut self, n: u64) -> bool {
        Handle::push(self, n).is_ok()
    }
    fn pop(&mut self) -> Option<u64> {
        Handle::pop(self).ok()
    }
    fn others(&mut self) -> Vec<Self> {
        (0..2 * THREADS).map(|_| self.split()).collect()
    }
}

impl User for Arc<ConcurrentQueue<u64>> {
    fn open(cap: usize) -> Self {
        Arc::new(if cap == 0 { ConcurrentQueue::unbounded() } else { ConcurrentQueue::bounded(cap) })
    }
    fn push(&mut self, n: u64) -> bool {
        ConcurrentQueue::push(self, n).is_ok()
    }
    fn pop(&mut self) -> Option<u64> {
        ConcurrentQueue::pop(self).ok()
    }
    fn others(&mut self) -> Vec<Self> {
        vec![Arc::clone(self); 2 * THREADS as usize]
    }
}

fn alone<U: User>(cap: usize) -> f64 {
    let mut user = U::open(cap);
    let mut sum = 0;
    let start = Instant::now();
    for i in 0..PAIRS {
        user.push(i);
        sum += user.pop().unwrap_or(0);
    }
    let took = start.elapsed().as_nanos() as f64 / PAIRS as f64;
    assert_eq!(sum, PAIRS * (PAIRS - 1) / 2);
    took
}

fn made_and_dropped<U: User>(cap: usize) -> f64 {
    let start = Instant::now();
    for i in 0..MADE {
        let mut user = U::open(cap);
        user.push(u64::from(i));
        assert_eq!(user.pop(), Some(u64::from(i)));
    }
    start.elapsed().as_nanos() as f64 / f64::from(MADE)
}

/// Of many at a time, since the allocator counts what it keeps for the next request as in use.
fn bytes<U: User>(cap: usize) -> usize {
    let before = mallinfo2().in_use;
    let mut users: Vec<U> = (0..MANY).map(|_| U::open(cap)).collect();
    for user in &mut users {
        user.push(1);
        user.pop();
    }
    (mallinfo2().in_use - before) / MANY
}

fn threads<U: User>(cap: usize) -> f64 {
    let mut user = U::open(cap);
    let users = user.others();
    let start = Instant::now();
    thread::scope(|scope| {
        for (i, mut user) in users.into_iter().enumerate() {
            scope.spawn(move || {
                for n in 0..EACH {
                    while if (i as u64) < THREADS { !user.push(n) } else { user.pop().is_none() } {
                        thread::yield_now();
                    }
                }
            });
        }
    });
    start.elapsed().as_nanos() as f64 / (THREADS * EACH) as f64
}

fn figures<U: User>(name: &str) {
    for cap in [1, 4, 64, 1000, 1024, 0] {
        let mut best = [f64::MAX; 3];
        for _ in 0..RUNS {
            best = [best[0].min(alone::<U>(cap)), best[1].min(threads::<U>(cap)), best[2].min(made_and_dropped::<U>(cap))];
        }
        println!("{name}, capacity {cap}: alone {:.0}, 4 and 4 {:.0}, made {:.0}, {} bytes", best[0], best[1], best[2], bytes::<U>(cap));
    }
}

fn main() {
    #[cfg(ours)]
    figures::<Handle<u64>>("Rust, Handle");
    figures::<Arc<ConcurrentQueue<u64>>>(if cfg!(ours) { "Rust, ConcurrentQueue" } else { "the crate concurrent-queue" });
}
