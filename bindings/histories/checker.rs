//! Decides whether a history is legal, by the law that `queue_check` decides by: each call has its effects between its beginning and its end, and together they are
//! those of a list with an optional capacity and a closed flag. A displacement from two slots or more may take two steps, of which one at a time is halfway.
use crate::history::{Call, Event, History, Reply};
use std::collections::HashSet;

#[cfg(test)]
mod tests;

/// What displacements may do, and what wrong queues do beside.
#[derive(Clone, Copy, Default)]
pub struct Rules {
    /// Each displacement is one step.
    pub at_once: bool,
    /// A displacement may undo a close.
    pub close_lost: bool,
    /// A push may find one slot full while another call takes its item.
    pub full_while_held: bool,
}

#[derive(Clone, Default, PartialEq, Eq, Hash)]
struct Queue {
    items: Vec<u64>,
    /// What the displacement that is halfway brings.
    coming: Option<u64>,
    closed: bool,
}

/// How far a call is.
#[derive(Clone, Copy, PartialEq, Eq, Hash)]
enum Way {
    Waiting { was_open: bool },
    Halfway,
    Answered,
}

/// The queue, and the call that each thread is in.
#[derive(Clone, PartialEq, Eq, Hash)]
struct Stage {
    queue: Queue,
    calls: Vec<Option<Way>>,
}

impl Stage {
    fn moved(&self, thread: usize, queue: Queue, way: Way) -> Stage {
        let mut next = Stage { queue, calls: self.calls.clone() };
        next.calls[thread] = Some(way);
        next
    }
}

struct Checker<'a> {
    history: &'a History,
    capacity: Option<usize>,
    rules: Rules,
}

impl Checker<'_> {
    fn is_full(&self, queue: &Queue) -> bool {
        self.capacity == Some(queue.items.len())
    }

    /// Whether the reply is right at this queue, and stands for no effect.
    fn sees(&self, queue: &Queue, call: Call, reply: Reply) -> bool {
        let is_gone = queue.items.is_empty() && queue.coming.is_none();
        match (call, reply) {
            (Call::Push(_), Reply::Full) => !queue.closed && self.is_full(queue),
            (Call::Push(_) | Call::ForcePush(_), Reply::Closed) => queue.closed,
            (Call::Pop, Reply::Empty) => is_gone && !queue.closed,
            (Call::Pop, Reply::Closed) => is_gone && queue.closed,
            (Call::Close, Reply::No) => queue.closed,
            (Call::Len, Reply::Len(len)) => len == queue.items.len(),
            (Call::IsEmpty, Reply::Yes | Reply::No) => reply == Reply::yes_if(queue.items.is_empty()),
            (Call::IsFull, Reply::Yes | Reply::No) => reply == Reply::yes_if(self.is_full(queue)),
            (Call::IsClosed, Reply::Yes | Reply::No) => reply == Reply::yes_if(queue.closed),
            _ => false,
        }
    }

    /// The queue after the only effect that the reply stands for, if it may be here.
    fn acts(&self, queue: &Queue, call: Call, reply: Reply) -> Option<Queue> {
        let mut next = queue.clone();
        match (call, reply) {
            (Call::Push(item) | Call::ForcePush(item), Reply::Done) if !queue.closed && queue.coming.is_none() && !self.is_full(queue) => next.items.push(item),
            (Call::ForcePush(item), Reply::Displaced(old)) if self.capacity == Some(1) && !queue.closed && queue.items == [old] => next.items = vec![item],
            (Call::Pop, Reply::Item(item)) if queue.items.first() == Some(&item) => drop(next.items.remove(0)),
            (Call::Close, Reply::Yes) if !queue.closed => next.closed = true,
            _ => return None,
        }
        Some(next)
    }

    /// The queue after the first step of a displacement, if it may be here.
    fn parts(&self, queue: &Queue, call: Call, reply: Reply) -> Option<Queue> {
        let (Call::ForcePush(item), Reply::Displaced(old)) = (call, reply) else { return None };
        let may = self.capacity != Some(1) && self.is_full(queue) && queue.coming.is_none() && queue.items.first() == Some(&old);
        may.then(|| Queue { items: queue.items[1..].to_vec(), coming: Some(item), closed: queue.closed })
    }

    fn arrives(queue: &Queue) -> Queue {
        let items = queue.items.iter().copied().chain(queue.coming).collect();
        Queue { items, coming: None, closed: queue.closed }
    }

    /// What a queue may do that is wrong, and is of a kind that has a name.
    fn is_wrong_alike(&self, stage: &Stage, thread: usize, event: &Event) -> Option<Stage> {
        let queue = &stage.queue;
        if self.rules.full_while_held && self.capacity == Some(1) && matches!((event.call, event.reply), (Call::Push(_), Reply::Full)) {
            let is_held = self.history.events().any(|other| event.overlaps(other) && other.takes());
            return is_held.then(|| stage.moved(thread, queue.clone(), Way::Answered));
        }
        if self.rules.close_lost && queue.closed && event.displaces() {
            let open = Queue { closed: false, ..queue.clone() };
            let parted = self.parts(&open, event.call, event.reply)?;
            return Some(stage.moved(thread, Self::arrives(&parted), Way::Answered));
        }
        None
    }

    /// The stages to which the thread's call, which gets this reply, leads by one step.
    fn moves(&self, stage: &Stage, thread: usize, event: &Event) -> Vec<Stage> {
        let queue = &stage.queue;
        let was_open = match stage.calls[thread] {
            Some(Way::Waiting { was_open }) => was_open,
            Some(Way::Halfway) => return vec![stage.moved(thread, Self::arrives(queue), Way::Answered)],
            Some(Way::Answered) | None => return Vec::new(),
        };
        let mut next = Vec::new();
        if self.sees(queue, event.call, event.reply) {
            next.push(stage.moved(thread, queue.clone(), Way::Answered));
        }
        next.extend(self.acts(queue, event.call, event.reply).map(|after| stage.moved(thread, after, Way::Answered)));
        if let Some(parted) = self.parts(queue, event.call, event.reply) {
            if self.rules.at_once && !queue.closed {
                next.push(stage.moved(thread, Self::arrives(&parted), Way::Answered));
            } else if !self.rules.at_once && was_open {
                next.push(stage.moved(thread, parted, Way::Halfway));
            }
        }
        next.extend(self.is_wrong_alike(stage, thread, event));
        next
    }

    /// The stages at which the thread's call has its reply, from these on by any steps of the calls that have begun.
    fn answered(&self, stages: HashSet<Stage>, thread: usize, current: &[Option<&Event>]) -> HashSet<Stage> {
        let mut met = stages.clone();
        let mut open: Vec<Stage> = stages.into_iter().collect();
        let mut answered = HashSet::new();
        while let Some(stage) = open.pop() {
            if stage.calls[thread] == Some(Way::Answered) {
                answered.insert(stage);
                continue;
            }
            for (other, event) in current.iter().enumerate() {
                for next in event.iter().flat_map(|event| self.moves(&stage, other, event)) {
                    if met.insert(next.clone()) {
                        open.push(next);
                    }
                }
            }
        }
        answered
    }

    /// Goes through the beginnings and ends in the order of time, with all stages that an order of effects can be at.
    fn is_legal(&self) -> bool {
        let threads = self.history.0.len();
        let mut current: Vec<Option<&Event>> = vec![None; threads];
        let mut stages = HashSet::from([Stage { queue: Queue::default(), calls: vec![None; threads] }]);
        for (thread, event, is_begin) in self.history.in_time() {
            let record = |mut stage: Stage| {
                stage.calls[thread] = is_begin.then_some(Way::Waiting { was_open: !stage.queue.closed });
                stage
            };
            if is_begin {
                current[thread] = Some(event);
            } else {
                stages = self.answered(stages, thread, &current);
                current[thread] = None;
            }
            stages = stages.into_iter().map(record).collect();
        }
        !stages.is_empty()
    }
}

/// What a history is.
#[derive(Clone, Copy, Debug, PartialEq, Eq, Hash, PartialOrd, Ord)]
pub enum Verdict {
    /// Each call is atomic.
    Legal,
    /// Legal where a displacement takes two steps.
    LegalBetween,
    /// Illegal, and legal where a displacement may undo a close.
    CloseLost,
    /// Illegal, and legal where a slot is full while its item is taken.
    FullWhileHeld,
    /// Illegal, and none of these.
    Illegal,
}

impl Verdict {
    pub fn is_legal(self) -> bool {
        self <= Verdict::LegalBetween
    }
}

pub fn decide(history: &History, capacity: Option<usize>) -> Verdict {
    let tries = [
        (Verdict::Legal, Rules { at_once: true, ..Rules::default() }),
        (Verdict::LegalBetween, Rules::default()),
        (Verdict::CloseLost, Rules { close_lost: true, ..Rules::default() }),
        (Verdict::FullWhileHeld, Rules { full_while_held: true, ..Rules::default() }),
    ];
    let found = tries.into_iter().find(|(_, rules)| Checker { history, capacity, rules: *rules }.is_legal());
    found.map_or(Verdict::Illegal, |(verdict, _)| verdict)
}
