//! Records histories: threads that make random calls on new queues, all at one time as far as the machine lets them.
use crate::history::{Call, Event, History};
use crate::users::User;
use std::hint::spin_loop;
use std::sync::atomic::{AtomicU64, AtomicUsize, Ordering};
use std::thread;

/// How many queues the threads go through before they end.
pub const BATCH: usize = 128;

/// The threads of a history, and the calls that each makes.
const SHAPES: [(usize, usize); 3] = [(2, 8), (3, 6), (4, 4)];

/// How often each call is made, of 200: push, force_push, pop, len, is_empty, is_full, is_closed, close.
const MIXES: [[u64; 8]; 6] = [
    [60, 30, 60, 15, 12, 12, 6, 5],
    [90, 20, 40, 16, 12, 12, 6, 4],
    [40, 20, 100, 12, 12, 8, 4, 4],
    [15, 95, 40, 16, 14, 14, 4, 2],
    [70, 10, 110, 4, 2, 2, 1, 1],
    [25, 25, 25, 25, 25, 25, 25, 25],
];

pub struct Random(u64);

impl Random {
    pub fn new(seed: u64) -> Self {
        Random(seed)
    }

    fn next(&mut self) -> u64 {
        self.0 = self.0.wrapping_add(0x9E37_79B9_7F4A_7C15);
        let mut mixed = self.0;
        mixed = (mixed ^ (mixed >> 30)).wrapping_mul(0xBF58_476D_1CE4_E5B9);
        mixed = (mixed ^ (mixed >> 27)).wrapping_mul(0x94D0_49BB_1331_11EB);
        mixed ^ (mixed >> 31)
    }

    fn below(&mut self, limit: u64) -> u64 {
        self.next() % limit
    }

    fn call(&mut self, mix: &[u64; 8], item: u64) -> Call {
        let calls = [Call::Push(item), Call::ForcePush(item), Call::Pop, Call::Len, Call::IsEmpty, Call::IsFull, Call::IsClosed, Call::Close];
        let mut at = self.below(mix.iter().sum());
        for (call, often) in calls.into_iter().zip(mix) {
            if at < *often {
                return call;
            }
            at -= often;
        }
        Call::Pop
    }
}

/// What each stamp is taken from. No two stamps are equal.
static CLOCK: AtomicU64 = AtomicU64::new(0);

fn make(user: &mut User, call: Call) -> Event {
    let start = CLOCK.fetch_add(1, Ordering::SeqCst);
    let reply = user.call(call);
    let end = CLOCK.fetch_add(1, Ordering::SeqCst);
    Event { call, reply, start, end }
}

/// Where threads wait for each other, before each queue.
struct Meeting {
    threads: usize,
    arrived: AtomicUsize,
}

impl Meeting {
    fn wait(&self, round: usize) {
        self.arrived.fetch_add(1, Ordering::SeqCst);
        let mut spins = 0;
        while self.arrived.load(Ordering::SeqCst) < (round + 1) * self.threads {
            spins += 1;
            if spins < 2_000 { spin_loop() } else { thread::yield_now() }
        }
    }
}

/// What one thread does with one queue.
struct Part {
    user: User,
    calls: Vec<(u64, Call)>,
}

impl Part {
    fn make(&mut self) -> Vec<Event> {
        let make_one = |&(pause, call): &(u64, Call)| {
            (0..pause).for_each(|_| spin_loop());
            make(&mut self.user, call)
        };
        self.calls.iter().map(make_one).collect()
    }
}

/// The calls before the threads begin, so that a ring is not at its first place and a queue not empty.
fn calls_before(random: &mut Random, capacity: Option<usize>) -> Vec<Call> {
    let turns = random.below(capacity.map_or(70, |cap| cap.min(5) as u64 + 1));
    let fill = match capacity {
        Some(cap) if cap > 4 && random.below(2) == 0 => cap as u64 - random.below(3),
        Some(cap) => random.below(cap.min(4) as u64 + 1),
        None => random.below(4),
    };
    let there_and_back = (1..=turns).flat_map(|item| [Call::Push(item), Call::Pop]);
    there_and_back.chain((1..=fill).map(|item| Call::Push(100 + item))).collect()
}

/// What one user sees when the threads have ended.
fn see_what_is_left(user: &mut User, events: &mut Vec<Event>) {
    for call in [Call::Len, Call::IsEmpty, Call::IsFull, Call::IsClosed] {
        events.push(make(user, call));
    }
    loop {
        let event = make(user, Call::Pop);
        events.push(event);
        if !event.takes() {
            return;
        }
    }
}

/// The histories of a batch of new queues of this capacity.
pub fn record(random: &mut Random, capacity: Option<usize>) -> Vec<History> {
    let (threads, calls) = SHAPES[random.below(3) as usize];
    let mut parts: Vec<Vec<Part>> = (0..threads).map(|_| Vec::new()).collect();
    let mut firsts = Vec::new();
    for _ in 0..BATCH {
        let mut users = User::of_new_queue(capacity, threads + 1);
        let mut first = users.remove(0);
        let before: Vec<Event> = calls_before(random, capacity).into_iter().map(|call| make(&mut first, call)).collect();
        firsts.push((first, before));
        let mix = MIXES[random.below(6) as usize];
        let pause = [1, 4, 12][random.below(3) as usize];
        for (thread, user) in users.into_iter().enumerate() {
            let item = |i: usize| 1000 * (thread + 1) as u64 + i as u64;
            let calls = (0..calls).map(|i| (random.below(pause), random.call(&mix, item(i)))).collect();
            parts[thread].push(Part { user, calls });
        }
    }
    let meeting = Meeting { threads, arrived: AtomicUsize::new(0) };
    let run = |mut parts: Vec<Part>| -> Vec<Vec<Event>> {
        let in_turn = parts.iter_mut().enumerate();
        in_turn
            .map(|(round, part)| {
                meeting.wait(round);
                part.make()
            })
            .collect()
    };
    let made: Vec<Vec<Vec<Event>>> = thread::scope(|scope| {
        let run = &run;
        let started: Vec<_> = parts.into_iter().map(|parts| scope.spawn(move || run(parts))).collect();
        started.into_iter().map(|thread| thread.join().expect("a thread ends")).collect()
    });
    let history = |(round, (mut first, mut events)): (usize, (User, Vec<Event>))| {
        see_what_is_left(&mut first, &mut events);
        let others = made.iter().map(|rounds| rounds[round].clone());
        History(others.chain([events]).collect())
    };
    firsts.into_iter().enumerate().map(history).collect()
}
