//! Pushes and pops in turn: `pair CAPACITY COUNT`. Capacity 0 is none. With `--cfg handle` by `Handle`, else by `ConcurrentQueue`. For `instructions`.
#[cfg(not(handle))]
use concurrent_queue::ConcurrentQueue as Queue;
#[cfg(handle)]
use concurrent_queue::Handle as Queue;

fn main() {
    let number = |at: usize| std::env::args().nth(at).and_then(|word| word.parse::<u64>().ok()).expect("pair CAPACITY COUNT");
    let (capacity, count) = (number(1) as usize, number(2));
    #[allow(unused_mut)]
    let mut queue = if capacity == 0 { Queue::unbounded() } else { Queue::bounded(capacity) };
    let mut sum = 0;
    for i in 0..count {
        assert!(queue.push(i).is_ok());
        sum += queue.pop().unwrap_or(0);
    }
    assert_eq!(sum, count * (count - 1) / 2);
}
