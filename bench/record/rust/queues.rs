//! Queues of Rust's library and of crates: of each the calls that are recorded. Capacity 0 is none.
use std::collections::VecDeque;
use std::fmt;
use std::sync::mpsc::sync_channel;
use std::sync::{Arc, Mutex};

pub enum Reply {
    Done,
    Full(u64),
    Closed(u64),
    Displaced(u64),
    Item(u64),
    Empty,
    Shut,
    Is(bool),
    Count(usize),
}

impl fmt::Display for Reply {
    fn fmt(&self, out: &mut fmt::Formatter) -> fmt::Result {
        match self {
            Reply::Done => write!(out, "ok"),
            Reply::Full(value) => write!(out, "full {value}"),
            Reply::Closed(value) => write!(out, "closed {value}"),
            Reply::Displaced(value) => write!(out, "displaced {value}"),
            Reply::Item(value) => write!(out, "item {value}"),
            Reply::Empty => write!(out, "empty"),
            Reply::Shut => write!(out, "closed"),
            Reply::Is(yes) => write!(out, "{yes}"),
            Reply::Count(count) => write!(out, "{count}"),
        }
    }
}

pub struct Call {
    pub name: &'static str,
    pub make: Box<dyn Fn(u64) -> Reply + Sync>,
}

impl Call {
    pub fn words(&self, value: u64) -> String {
        if matches!(self.name, "push" | "force") { format!("{} {value}", self.name) } else { self.name.to_string() }
    }
}

/// A call of a queue that others call too.
fn call<Q: Send + Sync + 'static>(queue: &Arc<Q>, name: &'static str, make: impl Fn(&Q, u64) -> Reply + Sync + 'static) -> Call {
    let queue = queue.clone();
    Call { name, make: Box::new(move |value| make(&queue, value)) }
}

fn pushed<E>(done: Result<(), E>, value: u64) -> Reply {
    done.map_or(Reply::Full(value), |()| Reply::Done)
}

fn popped(item: Option<u64>) -> Reply {
    item.map_or(Reply::Empty, Reply::Item)
}

fn std_mpsc(capacity: usize) -> Vec<Call> {
    let (sender, receiver) = sync_channel(capacity);
    let queue = Arc::new((sender, Mutex::new(receiver)));
    vec![call(&queue, "push", |(sender, _), value| pushed(sender.try_send(value), value)), call(&queue, "pop", |(_, receiver), _| popped(receiver.lock().unwrap().try_recv().ok()))]
}

/// A wrong one: its pop looks at the front under the lock, and takes it off under the lock once more.
fn wrong(capacity: usize) -> Vec<Call> {
    let queue = Arc::new(Mutex::new(VecDeque::new()));
    let push = move |queue: &Mutex<VecDeque<u64>>, value| {
        let mut items = queue.lock().unwrap();
        if items.len() == capacity {
            return Reply::Full(value);
        }
        items.push_back(value);
        Reply::Done
    };
    let pop = |queue: &Mutex<VecDeque<u64>>, _| {
        let front = queue.lock().unwrap().front().copied();
        queue.lock().unwrap().pop_front();
        popped(front)
    };
    vec![call(&queue, "push", push), call(&queue, "pop", pop)]
}

#[cfg(feature = "crossbeam-queue")]
fn array_queue(capacity: usize) -> Vec<Call> {
    type Queue = crossbeam_queue::ArrayQueue<u64>;
    let queue = Arc::new(Queue::new(capacity));
    let force = |queue: &Queue, value| queue.force_push(value).map_or(Reply::Done, Reply::Displaced);
    vec![
        call(&queue, "push", |queue, value| pushed(queue.push(value), value)),
        call(&queue, "pop", |queue, _| popped(queue.pop())),
        call(&queue, "force", force),
        call(&queue, "force", force),
        call(&queue, "len", |queue, _| Reply::Count(queue.len())),
        call(&queue, "is_empty", |queue, _| Reply::Is(queue.is_empty())),
    ]
}

#[cfg(feature = "concurrent-queue")]
fn concurrent_queue(capacity: usize) -> Vec<Call> {
    use concurrent_queue::{ConcurrentQueue, ForcePushError, PopError, PushError};
    type Queue = ConcurrentQueue<u64>;
    let queue = Arc::new(if capacity == 0 { Queue::unbounded() } else { Queue::bounded(capacity) });
    let push = |queue: &Queue, value| match queue.push(value) {
        Ok(()) => Reply::Done,
        Err(PushError::Full(value)) => Reply::Full(value),
        Err(PushError::Closed(value)) => Reply::Closed(value),
    };
    let force = |queue: &Queue, value| match queue.force_push(value) {
        Ok(old) => old.map_or(Reply::Done, Reply::Displaced),
        Err(ForcePushError(value)) => Reply::Closed(value),
    };
    let pop = |queue: &Queue, _| match queue.pop() {
        Ok(value) => Reply::Item(value),
        Err(PopError::Empty) => Reply::Empty,
        Err(PopError::Closed) => Reply::Shut,
    };
    let often = [0, 1, 2].map(|_| [call(&queue, "push", push), call(&queue, "force", force), call(&queue, "pop", pop)]);
    let rare = [call(&queue, "close", |queue, _| Reply::Is(queue.close())), call(&queue, "is_closed", |queue, _| Reply::Is(queue.is_closed()))];
    often.into_iter().flatten().chain(rare).collect()
}

pub fn calls_of(name: &str, capacity: usize) -> Vec<Call> {
    match name {
        "std_mpsc" => std_mpsc(capacity),
        "wrong" => wrong(capacity),
        #[cfg(feature = "crossbeam-queue")]
        "array_queue" => array_queue(capacity),
        #[cfg(feature = "concurrent-queue")]
        "concurrent_queue" => concurrent_queue(capacity),
        _ => panic!("no queue {name}, or its crate is not built in"),
    }
}
