//! What a history is: each thread's calls in turn, each with its reply and with a stamp from before and one from after it.

#[derive(Clone, Copy, Debug, PartialEq, Eq)]
pub enum Call {
    Push(u64),
    ForcePush(u64),
    Pop,
    Close,
    Len,
    IsEmpty,
    IsFull,
    IsClosed,
}

#[derive(Clone, Copy, Debug, PartialEq, Eq)]
pub enum Reply {
    Done,
    Displaced(u64),
    Item(u64),
    Full,
    Empty,
    Closed,
    Yes,
    No,
    Len(usize),
}

impl Reply {
    pub fn yes_if(yes: bool) -> Self {
        if yes { Reply::Yes } else { Reply::No }
    }
}

#[derive(Clone, Copy, Debug)]
pub struct Event {
    pub call: Call,
    pub reply: Reply,
    pub start: u64,
    pub end: u64,
}

impl Event {
    pub fn overlaps(&self, other: &Event) -> bool {
        self.start < other.end && other.start < self.end
    }

    pub fn displaces(&self) -> bool {
        matches!(self.reply, Reply::Displaced(_))
    }

    /// Whether it takes the front off.
    pub fn takes(&self) -> bool {
        matches!(self.reply, Reply::Displaced(_) | Reply::Item(_))
    }
}

/// The events of each thread, in the order in which it made them.
pub struct History(pub Vec<Vec<Event>>);

impl History {
    pub fn events(&self) -> impl Iterator<Item = &Event> {
        self.0.iter().flatten()
    }

    /// The beginnings and ends in the order of time: whose, of which call, and whether it begins.
    pub fn in_time(&self) -> Vec<(usize, &Event, bool)> {
        let of_thread = |(thread, events): (usize, &'_ Vec<Event>)| -> Vec<(u64, usize, usize, bool)> {
            events.iter().enumerate().flat_map(|(at, event)| [(event.start, thread, at, true), (event.end, thread, at, false)]).collect()
        };
        let mut stamps: Vec<_> = self.0.iter().enumerate().flat_map(of_thread).collect();
        stamps.sort_unstable();
        stamps.into_iter().map(|(_, thread, at, is_begin)| (thread, &self.0[thread][at], is_begin)).collect()
    }

    /// Whether two threads were in calls at one time.
    pub fn has_overlap(&self) -> bool {
        let mut pairs = self.0.iter().enumerate().flat_map(|(i, one)| self.0[..i].iter().map(move |other| (one, other)));
        pairs.any(|(one, other)| one.iter().any(|event| other.iter().any(|them| event.overlaps(them))))
    }

    pub fn print(&self) {
        for (thread, events) in self.0.iter().enumerate() {
            for event in events {
                println!("  thread {thread}: {:>6} .. {:<6} {:?} -> {:?}", event.start, event.end, event.call, event.reply);
            }
        }
    }
}
