//! Nanoseconds of an item through a channel of async-channel, and of a task of async-executor. Each line is a case and the best of so many runs.
use async_channel::{Receiver, Sender};
use async_executor::{Executor, LocalExecutor};
use futures_lite::future::{block_on, yield_now};
use std::thread;
use std::time::Instant;

const RUNS: usize = 7;
const ITEMS: u64 = 20_000;
const TASKS: u64 = 2_000;
const YIELDS: u64 = 10;
const MADE: u64 = 1_000;

fn channel(capacity: Option<usize>) -> (Sender<u64>, Receiver<u64>) {
    capacity.map_or_else(async_channel::unbounded, async_channel::bounded)
}

fn to_and_fro(capacity: Option<usize>) -> u64 {
    let (sender, receiver) = channel(capacity);
    block_on(async {
        for item in 0..ITEMS {
            sender.send(item).await.expect("it is open");
            assert_eq!(receiver.recv().await, Ok(item));
        }
    });
    ITEMS
}

fn sum_of(receiver: Receiver<u64>) -> u64 {
    block_on(async {
        let mut sum = 0;
        while let Ok(item) = receiver.recv().await {
            sum += item;
        }
        sum
    })
}

fn between(threads: u64, capacity: Option<usize>) -> u64 {
    let (sender, receiver) = channel(capacity);
    let each = ITEMS / threads;
    let sum: u64 = thread::scope(|scope| {
        for _ in 0..threads {
            let sender = sender.clone();
            scope.spawn(move || {
                block_on(async {
                    for item in 0..each {
                        sender.send(item).await.expect("it is open");
                    }
                });
            });
        }
        drop(sender);
        let started: Vec<_> = (0..threads).map(|_| scope.spawn(|| sum_of(receiver.clone()))).collect();
        started.into_iter().map(|thread| thread.join().expect("it ends")).sum()
    });
    assert_eq!(sum, threads * each * (each - 1) / 2);
    ITEMS
}

async fn gives_way() {
    for _ in 0..YIELDS {
        yield_now().await;
    }
}

fn on_one_thread() -> u64 {
    let executor = LocalExecutor::new();
    block_on(executor.run(async {
        let tasks: Vec<_> = (0..TASKS).map(|_| executor.spawn(gives_way())).collect();
        for task in tasks {
            task.await;
        }
    }));
    TASKS * YIELDS
}

fn on_threads(threads: u64) -> u64 {
    let executor = Executor::new();
    let (stop, stopped) = async_channel::bounded::<()>(1);
    thread::scope(|scope| {
        for _ in 0..threads {
            scope.spawn(|| block_on(executor.run(stopped.recv())));
        }
        block_on(async {
            let tasks: Vec<_> = (0..TASKS).map(|_| executor.spawn(gives_way())).collect();
            for task in tasks {
                task.await;
            }
        });
        stop.close();
    });
    TASKS * YIELDS
}

fn made() -> u64 {
    for item in 0..MADE {
        let (sender, receiver) = channel(Some(64));
        sender.try_send(item).expect("there is room");
        assert_eq!(receiver.try_recv(), Ok(item));
    }
    MADE
}

fn spawned() -> u64 {
    let executor = LocalExecutor::new();
    block_on(executor.run(async {
        for item in 0..TASKS {
            assert_eq!(executor.spawn(async move { item }).await, item);
        }
    }));
    TASKS
}

fn time(name: &str, case: impl Fn() -> u64) {
    let run = |_| {
        let start = Instant::now();
        let count = case();
        start.elapsed().as_nanos() as f64 / count as f64
    };
    println!("{:.0} {name}", (0..RUNS).map(run).fold(f64::MAX, f64::min));
}

fn main() {
    for capacity in [Some(1), Some(64), None] {
        let of = capacity.map_or("no capacity".to_string(), |cap| format!("capacity {cap}"));
        time(&format!("a channel, one task, {of}"), || to_and_fro(capacity));
        time(&format!("a channel, 1 and 1 threads, {of}"), || between(1, capacity));
        time(&format!("a channel, 4 and 4 threads, {of}"), || between(4, capacity));
    }
    time("a channel made, used once, dropped", made);
    time("LocalExecutor, a task spawned and awaited", spawned);
    time("LocalExecutor, a task gives way", on_one_thread);
    time("Executor on 1 thread, a task gives way", || on_threads(1));
    time("Executor on 4 threads, a task gives way", || on_threads(4));
}
