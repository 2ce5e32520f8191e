//! Histories of which the law is known. The last number of each call is when it ends.
use super::{Verdict, decide};
use crate::history::{Call, Event, History, Reply};

fn event((start, call, reply, end): (u64, Call, Reply, u64)) -> Event {
    Event { call, reply, start, end }
}

fn verdict<const N: usize>(capacity: usize, threads: [&[(u64, Call, Reply, u64)]; N]) -> Verdict {
    let history = History(threads.iter().map(|events| events.iter().copied().map(event).collect()).collect());
    decide(&history, Some(capacity))
}

const PUSH_1: (u64, Call, Reply, u64) = (0, Call::Push(1), Reply::Done, 1);
const PUSH_2: (u64, Call, Reply, u64) = (2, Call::Push(2), Reply::Done, 3);
const FORCE_3: (u64, Call, Reply, u64) = (10, Call::ForcePush(3), Reply::Displaced(1), 20);
const FORCE_4: (u64, Call, Reply, u64) = (11, Call::ForcePush(4), Reply::Displaced(2), 21);

fn len(is: usize) -> (u64, Call, Reply, u64) {
    (12, Call::Len, Reply::Len(is), 13)
}

#[test]
fn a_displacement_from_two_slots_is_seen_between() {
    assert_eq!(verdict(2, [&[PUSH_1, PUSH_2, FORCE_3], &[len(2)]]), Verdict::Legal);
    assert_eq!(verdict(2, [&[PUSH_1, PUSH_2, FORCE_3], &[len(1)]]), Verdict::LegalBetween);
    assert_eq!(verdict(2, [&[PUSH_1, PUSH_2, FORCE_3], &[len(0)]]), Verdict::Illegal);
}

#[test]
fn one_slot_is_never_seen_empty_beside_a_displacement() {
    assert_eq!(verdict(1, [&[PUSH_1, FORCE_3], &[len(1)]]), Verdict::Legal);
    assert_eq!(verdict(1, [&[PUSH_1, FORCE_3], &[len(0)]]), Verdict::Illegal);
}

#[test]
fn one_displacement_at_a_time_is_halfway() {
    assert_eq!(verdict(2, [&[PUSH_1, PUSH_2, FORCE_3], &[FORCE_4], &[len(1)]]), Verdict::LegalBetween);
    assert_eq!(verdict(2, [&[PUSH_1, PUSH_2, FORCE_3], &[FORCE_4], &[len(0)]]), Verdict::Illegal);
}

#[test]
fn a_close_that_is_lost_and_a_slot_that_is_held() {
    let closed = (4, Call::Close, Reply::Yes, 5);
    assert_eq!(verdict(2, [&[PUSH_1, PUSH_2, closed, FORCE_3]]), Verdict::CloseLost);
    let takes = (10, Call::Pop, Reply::Item(1), 20);
    let (empty, full) = ((11, Call::Pop, Reply::Empty, 12), (13, Call::Push(5), Reply::Full, 14));
    assert_eq!(verdict(1, [&[PUSH_1, takes], &[empty, full]]), Verdict::FullWhileHeld);
}

/// A call that began before a close may take effect after it in two steps, as the law has it, and one that began after it may not.
#[test]
fn a_displacement_beside_a_close() {
    let (closes, pops) = ((11, Call::Close, Reply::Yes, 12), (13, Call::IsClosed, Reply::Yes, 14));
    assert_eq!(verdict(2, [&[PUSH_1, PUSH_2, FORCE_3], &[closes, pops]]), Verdict::Legal);
    let looks = [closes, (13, Call::IsFull, Reply::Yes, 14), (15, Call::Len, Reply::Len(1), 16)];
    assert_eq!(verdict(2, [&[PUSH_1, PUSH_2, FORCE_3], &looks]), Verdict::LegalBetween);
}
