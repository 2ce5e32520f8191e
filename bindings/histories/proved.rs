//! Asks `queue_check`, which is proved, what a history is.
use crate::checker::Verdict;
use crate::history::{Call, Event, History, Reply};
use std::io::Write;
use std::process::{Command, Stdio};

fn call_text(call: Call) -> String {
    match call {
        Call::Push(item) => format!("push {item}"),
        Call::ForcePush(item) => format!("force {item}"),
        Call::Pop => "pop".to_string(),
        Call::Close => "close".to_string(),
        Call::Len => "len".to_string(),
        Call::IsEmpty => "is_empty".to_string(),
        Call::IsFull => "is_full".to_string(),
        Call::IsClosed => "is_closed".to_string(),
    }
}

fn reply_text(call: Call, reply: Reply) -> String {
    match (reply, call) {
        (Reply::Done, _) => "ok".to_string(),
        (Reply::Displaced(item), _) => format!("displaced {item}"),
        (Reply::Item(item), _) => format!("item {item}"),
        (Reply::Full, Call::Push(item)) => format!("full {item}"),
        (Reply::Closed, Call::Push(item) | Call::ForcePush(item)) => format!("closed {item}"),
        (Reply::Full, _) => "full".to_string(),
        (Reply::Closed, _) => "closed".to_string(),
        (Reply::Empty, _) => "empty".to_string(),
        (Reply::Yes, _) => "true".to_string(),
        (Reply::No, _) => "false".to_string(),
        (Reply::Len(len), _) => len.to_string(),
    }
}

/// The history as the program reads it.
fn text(history: &History) -> String {
    let line = |(party, event, is_begin): (usize, &Event, bool)| {
        let word = if is_begin { call_text(event.call) } else { format!("= {}", reply_text(event.call, event.reply)) };
        format!("{party} {word}\n")
    };
    history.in_time().into_iter().map(line).collect()
}

/// Whether the program at this path finds the history legal on a queue of this kind.
fn is_legal(program: &str, kind: &str, text: &str) -> bool {
    let mut started = Command::new(program).arg(kind).stdin(Stdio::piped()).stdout(Stdio::piped()).spawn().expect("queue_check starts");
    // What is written may be more than it reads before it ends.
    let _ = started.stdin.take().expect("its input").write_all(text.as_bytes());
    let ended = started.wait_with_output().expect("queue_check ends");
    match ended.status.code() {
        Some(0) => true,
        Some(1) => false,
        status => panic!("queue_check {kind} ends with {status:?}: {}{text}", String::from_utf8_lossy(&ended.stdout)),
    }
}

/// Whether the program finds of the history what the verdict says.
pub fn agrees(program: &str, history: &History, capacity: Option<usize>, verdict: Verdict) -> bool {
    let kind = match capacity {
        None => "unbounded".to_string(),
        Some(1) => "single".to_string(),
        Some(cap) => format!("bounded:{cap}"),
    };
    let text = text(history);
    let found = (is_legal(program, &format!("atomic:{kind}"), &text), is_legal(program, &kind, &text));
    found == (verdict == Verdict::Legal, verdict.is_legal())
}
