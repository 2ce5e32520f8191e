//! Records small histories of threads on a queue, a new queue for each: record QUEUE CAPACITY [HISTORIES]. A function in `queues.rs` is what a queue of yours needs.
mod queues;

use queues::{Call, calls_of};
use std::hint::spin_loop;
use std::sync::atomic::{AtomicUsize, Ordering::SeqCst};
use std::thread;

const THREADS: usize = 3;
const CALLS: usize = 8;

fn record(calls: &[Call], seed: u64) -> Vec<String> {
    let (clock, arrived) = (&AtomicUsize::new(0), &AtomicUsize::new(0));
    let run = |party: u64| {
        let mut random = (seed << 8 | party).wrapping_mul(0x9E37_79B9_7F4A_7C15) | 1;
        let mut below = move |limit: u64| {
            random ^= random << 13;
            random ^= random >> 7;
            random ^= random << 17;
            random % limit
        };
        arrived.fetch_add(1, SeqCst);
        let mut spins = 0;
        while arrived.load(SeqCst) < THREADS {
            spins += 1;
            if spins > 1000 { thread::yield_now() } else { spin_loop() }
        }
        let make_one = |at| {
            let (call, value) = (&calls[below(calls.len() as u64) as usize], 100 * (party + 1) + at);
            (0..below(64)).for_each(|_| spin_loop());
            let begin = clock.fetch_add(1, SeqCst);
            let reply = (call.make)(value);
            let end = clock.fetch_add(1, SeqCst);
            [(begin, format!("{party} {}", call.words(value))), (end, format!("{party} = {reply}"))]
        };
        (0..CALLS as u64).flat_map(make_one).collect::<Vec<_>>()
    };
    let mut lines: Vec<_> = thread::scope(|scope| {
        let threads: Vec<_> = (0..THREADS as u64).map(|party| scope.spawn(move || run(party))).collect();
        threads.into_iter().flat_map(|it| it.join().expect("a thread ends")).collect()
    });
    lines.sort();
    lines.into_iter().map(|(_, line)| line).collect()
}

fn main() {
    let words: Vec<String> = std::env::args().skip(1).collect();
    let (name, capacity) = (&words[0], words[1].parse().expect("a capacity"));
    let count = words.get(2).map_or(2000, |it| it.parse().expect("how many histories"));
    for seed in 0..count {
        println!("{}\n", record(&calls_of(name, capacity), seed).join("\n"));
    }
}
