//! One thread pushes numbers, this one adds them up.
use concurrent_queue::{ConcurrentQueue, PopError};
use std::thread;

fn main() {
    let queue = ConcurrentQueue::bounded(4);
    let mut sum = 0;
    thread::scope(|scope| {
        scope.spawn(|| {
            for number in 1..=100 {
                while queue.push(number).is_err() {
                    thread::yield_now();
                }
            }
            queue.close();
        });
        loop {
            match queue.pop() {
                Ok(number) => sum += number,
                Err(PopError::Empty) => thread::yield_now(),
                Err(PopError::Closed) => break,
            }
        }
    });
    println!("{sum}");
    assert_eq!(sum, 5050);
}
